//! Document 02, §14: every observation's absolute position and time, the changes added up from the first observation.

use super::record::{Field, Observation, LATITUDE, LONGITUDE, TIME};
use super::{report, Refusal};

/// Where an observation was made and when, in minutes and in seconds from the month's beginning; `None` is missing.
#[derive(Clone, Copy, Debug, Default, PartialEq, Eq)]
pub struct Point {
    pub latitude: Option<i32>,
    pub longitude: Option<i32>,
    pub seconds: Option<i32>,
}

impl Point {
    /// Whether nothing is missing.
    pub fn known(&self) -> bool {
        self.latitude.is_some() && self.longitude.is_some() && self.seconds.is_some()
    }
}

/// One point for each present observation, in their order; those behind them carry nothing.
#[derive(Clone, Copy, Debug, PartialEq, Eq)]
pub struct Track {
    pub points: [Point; 8],
    pub count: usize,
}

/// What becomes of a sum outside the limits of a first observation's field.
#[derive(Clone, Copy)]
enum Beyond {
    /// "A latitude sum outside its range is missing."
    Missing,
    /// "A sum above 10,800 loses 21,600 and one below -10,800 gains it."
    Turn,
    /// "Seconds run on past the month's end and aren't wrapped."
    RunsOn,
}

const FIGURES: [(Field, Beyond); 3] = [(LATITUDE, Beyond::Missing), (LONGITUDE, Beyond::Turn), (TIME, Beyond::RunsOn)];

/// "Refusals: those of the report reader."
pub fn track(text: &[u8]) -> Result<Track, Refusal> {
    let report = report::read(text)?;
    let mut sums = steps(&report.first);
    let mut track = Track { points: [point(sums); 8], count: 1 };
    for seen in report.later.iter().flatten() {
        let changes = steps(seen);
        sums = std::array::from_fn(|figure| sum(FIGURES[figure], sums[figure], changes[figure]));
        track.points[track.count] = point(sums);
        track.count += 1;
    }
    track.points[track.count..].fill(Point::default());
    Ok(track)
}

fn steps(of: &Observation) -> [Option<i32>; 3] {
    [of.latitude, of.longitude, of.time]
}

fn point([latitude, longitude, seconds]: [Option<i32>; 3]) -> Point {
    Point { latitude, longitude, seconds }
}

/// "A figure is known when it is given in the first and in every observation up to this one; else it is missing": a sum
/// that is missing stays so.
fn sum((field, beyond): (Field, Beyond), before: Option<i32>, change: Option<i32>) -> Option<i32> {
    let sum = before? + change?;
    let turn = field.high - field.low;
    match beyond {
        Beyond::Missing => Some(sum).filter(|_| field.holds(Some(sum))),
        Beyond::Turn if sum > field.high => Some(sum - turn),
        Beyond::Turn if sum < field.low => Some(sum + turn),
        Beyond::Turn | Beyond::RunsOn => Some(sum),
    }
}
