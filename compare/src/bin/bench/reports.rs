//! Rows of packed figures and reports.

use crate::linked;
use crate::measure::{best, pass, Bench, INPUTS};
use desk_compare::random::Random;
use desk_compare::second::record::{Observation, Report, BYTES};
use desk_compare::second::track::{track, Track};
use desk_compare::second::{packed, raw, report, write, Refusal};
use desk_compare::{make, meet, ours};
use std::hint::black_box;

pub fn rows(bench: &Bench) {
    packed_rows(bench);
    report_rows(bench);
}

// The second program's calls, kept apart from the loops that time them as the archive's are.

#[inline(never)]
fn second_packed_read(field: &[u8]) -> Result<Option<i32>, Refusal> {
    packed::read(field)
}

#[inline(never)]
fn second_packed_write(figure: raw::Figure, width: usize, out: &mut [u8]) -> Result<usize, Refusal> {
    packed::write(figure, width, out)
}

#[inline(never)]
pub fn second_check(text: &[u8]) -> Result<(), Refusal> {
    report::check(text)
}

#[inline(never)]
pub fn second_read(text: &[u8]) -> Result<Report, Refusal> {
    report::read(text)
}

#[inline(never)]
pub fn second_track(text: &[u8]) -> Result<Track, Refusal> {
    track(text)
}

#[inline(never)]
fn second_write(record: &raw::Report, out: &mut [u8]) -> Result<usize, Refusal> {
    write::write(record, out)
}

/// Fields as they stand in reports: of 2, 3 and 5 bytes, one in ten missing.
fn packed_fields(random: &mut Random) -> Vec<(Option<i32>, Vec<u8>)> {
    let field = |_| {
        let width = random.of(&[2, 2, 2, 2, 3, 3, 3, 5]);
        let figure = (!random.percent(10)).then(|| make::figure_of_digits(random, width));
        let mut field = vec![0; width];
        packed::put(figure, &mut field);
        (figure, field)
    };
    (0..INPUTS).map(field).collect()
}

/// Fields of one width, with figures of every size, one in ten missing.
fn fields_of(random: &mut Random, width: usize) -> Vec<Vec<u8>> {
    let field = |_| {
        let figure = (!random.percent(10)).then(|| make::figure_of_digits(random, width));
        let mut field = vec![0; width];
        packed::put(figure, &mut field);
        field
    };
    (0..INPUTS).map(field).collect()
}

fn packed_rows(bench: &Bench) {
    let fields = packed_fields(&mut Random::new(1, "bench-packed"));
    bench.row("packed read (256 valid fields)", INPUTS, None, || {
        best(
            || pass(&fields, |(_, field)| linked::packed_read(field)),
            || pass(&fields, |(_, field)| second_packed_read(field)),
        )
    });
    for width in 1..=5 {
        let fields: Vec<Vec<u8>> = fields_of(&mut Random::new(1, "bench-width"), width);
        bench.row(&format!("packed read, {width} byte{}", if width == 1 { "" } else { "s" }), INPUTS, None, || {
            best(
                || pass(&fields, |field| linked::packed_read(field)),
                || pass(&fields, |field| second_packed_read(field)),
            )
        });
    }
    let ours: Vec<_> = fields.iter().map(|(figure, field)| (meet::figure(*figure), field.len())).collect();
    let second: Vec<_> = fields.iter().map(|(figure, field)| (raw::Figure::from(*figure), field.len())).collect();
    let (mut one, mut other) = ([0; 8], [0; 8]);
    bench.row("packed write (256 figures)", INPUTS, None, || {
        best(
            || pass(&ours, |(figure, width)| linked::packed_write(*figure, *width, black_box(&mut one))),
            || pass(&second, |(figure, width)| second_packed_write(*figure, *width, black_box(&mut other))),
        )
    });
}

/// An observation as aircraft send them; `lost` figures in a hundred are missing.
fn typical_observation(random: &mut Random, spans: [(i32, i32); 3]) -> Observation {
    let mut figure = |(low, high): (i32, i32), lost| (!random.percent(lost)).then(|| random.between(low, high));
    let [latitude, longitude, time] = spans.map(|span| figure(span, 2));
    let wind_direction = figure((0, 360), 3);
    let wind_speed = figure((0, 160), 0).filter(|_| wind_direction.is_some());
    Observation {
        kind: b'R',
        latitude,
        longitude,
        time,
        altitude: figure((0, 4100), 1),
        temperature: figure((-650, 350), 2),
        wind_direction,
        wind_speed,
        gust: figure((0, 30), 20),
        vapour: figure((0, 20_000), 80),
        quality: b'9',
    }
}

/// A report as aircraft send them: mostly eight observations, small changes, gust often and vapour mostly missing.
pub fn typical(random: &mut Random) -> Report {
    let present = if random.percent(75) { 7 } else { random.below(8) };
    let first = typical_observation(random, [(-5400, 5400), (-10_800, 10_800), (0, 2_678_399)]);
    let later = |index| (index < present).then(|| typical_observation(random, [(-60, 60), (-60, 60), (20, 480)]));
    Report { departure: *b"YMML", arrival: *b"YPAD", designator: *b"AU0137", first, later: std::array::from_fn(later) }
}

fn report_rows(bench: &Bench) {
    let mut random = Random::new(1, "bench-report");
    let records: Vec<Report> = (0..INPUTS).map(|_| typical(&mut random)).collect();
    let texts: Vec<[u8; BYTES]> = records.iter().map(make::text).collect();
    let full = [make::text(&make::record_of(&mut random, 7, 0)); 64];
    bench.row("report check (256 typical reports)", INPUTS, Some(BYTES), || checks(&texts));
    bench.row("report check (one report, all figures given)", full.len(), Some(BYTES), || checks(&full));
    bench.row("report read (256 typical reports)", INPUTS, Some(BYTES), || {
        best(|| pass(&texts, |text| linked::report_read(text)), || pass(&texts, |text| second_read(text)))
    });
    bench.row("report track (256 typical reports)", INPUTS, Some(BYTES), || {
        best(|| pass(&texts, |text| linked::report_track(text)), || pass(&texts, |text| second_track(text)))
    });
    let ours: Vec<ours::Report> = records.iter().map(meet::record).collect();
    let second: Vec<raw::Report> = records.iter().map(raw::Report::from).collect();
    let (mut one, mut other) = ([0; 256], [0; 256]);
    bench.row("report write (256 typical records)", INPUTS, Some(BYTES), || {
        best(
            || pass(&ours, |record| linked::report_write(*record, black_box(&mut one))),
            || pass(&second, |record| second_write(record, black_box(&mut other))),
        )
    });
}

fn checks(texts: &[[u8; BYTES]]) -> [f64; 2] {
    best(|| pass(texts, |text| linked::report_check(text)), || pass(texts, |text| second_check(text)))
}
