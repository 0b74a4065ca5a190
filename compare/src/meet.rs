//! Where the two programs meet: the second one's answers said in the header's structs, member for member, and the
//! header's records said in the second program's types.

pub mod uplink;

use crate::ours;
use crate::second::record::{Observation, Report};
use crate::second::sheet::{Area, Port, Sheet};
use crate::second::track::{Point, Track};
use crate::second::{raw, Refusal};

/// What esk_packed_read ought to answer.
pub fn packed(answer: Result<Option<i32>, Refusal>) -> ours::Packed {
    match answer {
        Ok(Some(number)) => ours::Packed { number, given: 1, ..Default::default() },
        Ok(None) => ours::Packed::default(),
        Err(Refusal { code, place }) => ours::Packed { code, place: place as u16, ..Default::default() },
    }
}

/// What esk_gust ought to answer; its refusals are all at place 0.
pub fn gust(gust: Result<i32, Refusal>) -> ours::GustAnswer {
    match gust {
        Ok(gust) => ours::GustAnswer { gust, ..Default::default() },
        Err(Refusal { code, .. }) => ours::GustAnswer { code, ..Default::default() },
    }
}

/// What a call that checks or writes ought to answer; a check has the length 0.
pub fn answer(answer: Result<usize, Refusal>) -> ours::Answer {
    match answer {
        Ok(length) => ours::Answer { length: length as u32, ..Default::default() },
        Err(Refusal { code, place }) => ours::Answer { code, place: place.into(), ..Default::default() },
    }
}

/// What esk_report_read ought to answer: every byte of the report is 0 where it refuses.
pub fn got(read: &Result<Report, Refusal>) -> ours::ReportGot {
    match read {
        Ok(report) => ours::ReportGot { answer: answer(Ok(0)), report: record(report) },
        Err(refusal) => ours::ReportGot { answer: answer(Err(*refusal)), report: Default::default() },
    }
}

/// What esk_report_track ought to answer.
pub fn track(track: &Result<Track, Refusal>) -> ours::Track {
    let point = |of: Point| ours::Point {
        latitude: figure(of.latitude),
        longitude: figure(of.longitude),
        seconds: figure(of.seconds),
    };
    match track {
        Ok(Track { points, count }) => {
            ours::Track { answer: answer(Ok(0)), count: *count as u32, spare: 0, points: points.map(point) }
        }
        Err(refusal) => ours::Track { answer: answer(Err(*refusal)), ..Default::default() },
    }
}

/// A record of the second program in the header's struct, with 0 in all that carries nothing.
pub fn record(report: &Report) -> ours::Report {
    ours::Report {
        departure: report.departure,
        arrival: report.arrival,
        designator: report.designator,
        spare: [0; 2],
        first: observation(&report.first),
        later: report.later.map(|later| later.as_ref().map_or(Default::default(), observation)),
    }
}

fn observation(from: &Observation) -> ours::Observation {
    ours::Observation {
        latitude: figure(from.latitude),
        longitude: figure(from.longitude),
        time: figure(from.time),
        altitude: figure(from.altitude),
        temperature: figure(from.temperature),
        wind_direction: figure(from.wind_direction),
        wind_speed: figure(from.wind_speed),
        gust: figure(from.gust),
        vapour: figure(from.vapour),
        kind: from.kind,
        quality: from.quality,
        present: 1,
    }
}

pub fn figure(figure: Option<i32>) -> ours::Figure {
    figure.map_or(Default::default(), |number| ours::Figure { number, given: 1 })
}

/// The header's figure, as the second program is handed it.
pub fn raw_figure(figure: ours::Figure) -> raw::Figure {
    raw::Figure { number: figure.number, given: figure.given }
}

/// The header's record, as the second program is handed it: every member, whatever it holds.
pub fn raw_record(report: &ours::Report) -> raw::Report {
    raw::Report {
        departure: report.departure,
        arrival: report.arrival,
        designator: report.designator,
        spare: report.spare,
        first: raw_observation(&report.first),
        later: report.later.map(|later| raw_observation(&later)),
    }
}

fn raw_observation(from: &ours::Observation) -> raw::Observation {
    let figures = [
        from.latitude,
        from.longitude,
        from.time,
        from.altitude,
        from.temperature,
        from.wind_direction,
        from.wind_speed,
        from.gust,
        from.vapour,
    ];
    raw::Observation { kind: from.kind, figures: figures.map(raw_figure), quality: from.quality, present: from.present }
}

/// What esk_sheet_read ought to answer: every byte of the sheet is 0 where it refuses.
pub fn sheet_got(read: &Result<Sheet, Refusal>) -> ours::SheetGot {
    let (answer, sheet) = match read {
        Ok(of) => (answer(Ok(0)), sheet(of)),
        Err(refusal) => (answer(Err(*refusal)), sheet(&Sheet::default())),
    };
    ours::SheetGot { answer, sheet, spare: 0 }
}

/// A sheet of the second program in the header's struct. Its numbers are those of an accepted text, and so have room.
pub fn sheet(of: &Sheet) -> ours::Sheet {
    let short = |number: i32| i16::try_from(number).expect("a number of a sheet has two bytes");
    ours::Sheet {
        ascent: short(of.ascent),
        ascent_interval1: short(of.a1),
        ascent_interval2: short(of.a2),
        level: short(of.level),
        level_interval: short(of.seconds),
        descent: short(of.descent),
        descent_interval1: short(of.d1),
        descent_interval2: short(of.d2),
        trigger1: short(of.tl1),
        trigger2: short(of.tl2),
        observations: short(of.n),
        smoothing: short(of.method),
        profile_constant: short(of.profile),
        cruise_constant: short(of.cruise),
        gust_constant: short(of.devg),
        instant_constant: short(of.instant),
        boxes: of.areas.map(|area| ours::SheetBox {
            latitude1: short(area.y1),
            longitude1: short(area.x1),
            latitude2: short(area.y2),
            longitude2: short(area.x2),
            status: short(area.active),
        }),
        designator: of.aircraft,
        airports: of.ports.map(|port| ours::SheetAirport { icao: port.icao, status: port.active as u8 }),
    }
}

/// The header's sheet, as the second program is handed it: every member, whatever it holds.
pub fn raw_sheet(of: &ours::Sheet) -> Sheet {
    Sheet {
        aircraft: of.designator,
        ascent: of.ascent.into(),
        a1: of.ascent_interval1.into(),
        a2: of.ascent_interval2.into(),
        level: of.level.into(),
        seconds: of.level_interval.into(),
        descent: of.descent.into(),
        d1: of.descent_interval1.into(),
        d2: of.descent_interval2.into(),
        tl1: of.trigger1.into(),
        tl2: of.trigger2.into(),
        n: of.observations.into(),
        method: of.smoothing.into(),
        profile: of.profile_constant.into(),
        cruise: of.cruise_constant.into(),
        devg: of.gust_constant.into(),
        instant: of.instant_constant.into(),
        areas: of.boxes.map(|one| Area {
            y1: one.latitude1.into(),
            x1: one.longitude1.into(),
            y2: one.latitude2.into(),
            x2: one.longitude2.into(),
            active: one.status.into(),
        }),
        ports: of.airports.map(|one| Port { icao: one.icao, active: one.status.into() }),
    }
}
