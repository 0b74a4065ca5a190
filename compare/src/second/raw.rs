//! A report's record as a caller hands it over: figures that say whether they are given, observations that say whether
//! they are present, spare bytes. Each has one form, and another is refused: "where its field would stand", with 7.

use super::record;

/// "A figure, given or missing. It has one form: given is 1; or given and number are both 0."
#[derive(Clone, Copy, Debug, Default, PartialEq, Eq)]
pub struct Figure {
    pub number: i32,
    pub given: u32,
}

impl Figure {
    #[inline(always)]
    pub fn formed(self) -> bool {
        self.given == 1 || self == Figure::default()
    }

    /// What the checks of a figure's own look at, whatever its form: one that says 0 is missing, any other is given.
    #[inline(always)]
    pub fn meant(self) -> Option<i32> {
        (self.given != 0).then_some(self.number)
    }
}

impl From<Option<i32>> for Figure {
    fn from(figure: Option<i32>) -> Figure {
        figure.map_or(Figure::default(), |number| Figure { number, given: 1 })
    }
}

/// "1; or 0 for a later observation that is absent: its other members are then all 0."
#[derive(Clone, Copy, Debug, Default, PartialEq, Eq)]
pub struct Observation {
    pub kind: u8,
    /// Latitude, longitude, time, altitude, temperature, wind direction, wind speed, gust, vapour.
    pub figures: [Figure; 9],
    pub quality: u8,
    pub present: u16,
}

impl From<&record::Observation> for Observation {
    fn from(of: &record::Observation) -> Observation {
        let figures = [
            of.latitude,
            of.longitude,
            of.time,
            of.altitude,
            of.temperature,
            of.wind_direction,
            of.wind_speed,
            of.gust,
            of.vapour,
        ];
        Observation { kind: of.kind, figures: figures.map(Figure::from), quality: of.quality, present: 1 }
    }
}

#[derive(Clone, Copy, Debug, Default, PartialEq, Eq)]
pub struct Report {
    pub departure: [u8; 4],
    pub arrival: [u8; 4],
    pub designator: [u8; 6],
    pub spare: [u8; 2],
    pub first: Observation,
    pub later: [Observation; 7],
}

/// A record that was read, in the one form that it has.
impl From<&record::Report> for Report {
    fn from(of: &record::Report) -> Report {
        Report {
            departure: of.departure,
            arrival: of.arrival,
            designator: of.designator,
            spare: [0; 2],
            first: (&of.first).into(),
            later: of.later.map(|later| later.as_ref().map_or(Observation::default(), Observation::from)),
        }
    }
}
