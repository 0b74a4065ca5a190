//! Inputs: packed fields, reports and records, valid, nearly valid and damaged. What goes up is in its own files.

pub mod faults;
pub mod forms;
pub mod journal;
pub mod sheet;
pub mod uplink;

use crate::ours;
use crate::random::Random;
use crate::second::record::*;
use crate::second::{packed, write};

const DIGITS: &[u8; 40] = b"0123456789ABCDEFGHIJKLMNOPQRSTUVWXYZ:,-.";
const NAME: &[u8; 36] = DIGITS.first_chunk::<36>().unwrap();
pub const KINDS: &[u8; 6] = b"ADRWUE";
pub const QUALITIES: &[u8; 11] = b"/0123456789";
/// Bytes near the ones that mean something, and far from them.
const ODD: &[u8] = b" /./:@[`az0A9Z\r\n\0\t;+\x7f\x80\xa0\xaf\xff";

/// 20·40^(k-1), by multiplying.
pub fn half(digits: usize) -> i32 {
    (1..digits).fold(20, |half, _| half * 40)
}

/// A byte that is likely to be wrong where it comes to stand.
pub fn odd_byte(random: &mut Random) -> u8 {
    match random.below(4) {
        0 => random.byte(),
        1 => random.of(DIGITS),
        _ => random.of(ODD),
    }
}

/// A field of 4 or 5 bytes, or rarely of 0 or 6: shorter ones are compared whole.
pub fn packed_field(random: &mut Random) -> Vec<u8> {
    let width = match random.below(200) {
        0 => 0,
        1 => 6,
        other => 4 + other % 2,
    };
    packed_field_of(random, width)
}

/// A field of a width: valid, missing, too long a spelling, one byte wrong, or nothing like a field.
pub fn packed_field_of(random: &mut Random, width: usize) -> Vec<u8> {
    let mut field = match random.below(10) {
        0..=4 => figure_field(random, width),
        5 => vec![b'/'; width],
        6 | 7 => spelling_field(random, width),
        8 => (0..width).map(|_| odd_byte(random)).collect(),
        _ => (0..width).map(|_| random.of(b" /K0.9")).collect(),
    };
    if width > 0 && random.percent(20) {
        field[random.below(width)] = odd_byte(random);
    }
    field
}

/// A figure in its one spelling; wider fields than 5 are filled up with spaces.
fn figure_field(random: &mut Random, width: usize) -> Vec<u8> {
    let mut field = vec![b' '; width];
    if width > 0 {
        let figure = figure_of_digits(random, width.min(5));
        packed::put(Some(figure), &mut field);
    }
    field
}

/// Spaces and then any digits, often more than the figure needs.
fn spelling_field(random: &mut Random, width: usize) -> Vec<u8> {
    let spaces = random.below(width + 1);
    let mut field: Vec<u8> = (0..width).map(|i| if i < spaces { b' ' } else { random.of(DIGITS) }).collect();
    if spaces < width && random.percent(60) {
        field[spaces] = random.of(b"JK");
    }
    if spaces + 1 < width && random.percent(40) {
        field[spaces + 1] = random.of(b"0.JK");
    }
    field
}

/// A figure of at most so many digits, of every size and often at an edge.
pub fn figure_of_digits(random: &mut Random, digits: usize) -> i32 {
    let half = half(1 + random.below(digits));
    match random.below(6) {
        0 => -half,
        1 => half - 1,
        2 => 0,
        _ => random.between(-half, half - 1),
    }
}

/// Any figure at all, often at an edge of some width.
pub fn any_figure(random: &mut Random) -> i32 {
    match random.below(4) {
        0 => random.next() as i32,
        1 => half(1 + random.below(5)) + random.between(-2, 2),
        2 => -half(1 + random.below(5)) + random.between(-2, 2),
        _ => figure_of_digits(random, 5),
    }
}

/// A well-formed airfield or designator.
pub fn name<const N: usize>(random: &mut Random) -> [u8; N] {
    std::array::from_fn(|_| random.of(NAME))
}

/// A figure in a field's range, often at its edge.
pub fn allowed_figure(random: &mut Random, field: &Field) -> i32 {
    match random.below(8) {
        0 => field.low,
        1 => field.high,
        2 => 0,
        3 => random.between(-30, 30).clamp(field.low, field.high),
        _ => random.between(field.low, field.high),
    }
}

/// An allowed observation; of its figures so many in a hundred are missing.
fn observation(random: &mut Random, fields: &[Field; 9], missing: usize) -> Observation {
    let [a, b, c, d, e, f, g, h, i] = fields;
    let mut figure = |field: &Field| (!random.percent(missing)).then(|| allowed_figure(random, field));
    let [latitude, longitude, time, altitude] = [figure(a), figure(b), figure(c), figure(d)];
    let [temperature, wind_direction, gust, vapour] = [figure(e), figure(f), figure(h), figure(i)];
    let wind_speed = wind_direction.map(|_| allowed_figure(random, g));
    Observation {
        kind: random.of(KINDS),
        latitude,
        longitude,
        time,
        altitude,
        temperature,
        wind_direction,
        wind_speed,
        gust,
        vapour,
        quality: random.of(QUALITIES),
    }
}

/// An allowed record with so many later observations, and so many in a hundred of its figures missing.
pub fn record_of(random: &mut Random, present: usize, missing: usize) -> Report {
    Report {
        departure: name(random),
        arrival: name(random),
        designator: name(random),
        first: observation(random, &FIRST_FIELDS, missing),
        later: std::array::from_fn(|index| (index < present).then(|| observation(random, &LATER_FIELDS, missing))),
    }
}

pub fn record(random: &mut Random) -> Report {
    let present = random.below(8);
    let missing = random.of(&[0, 10, 30, 60, 100]);
    record_of(random, present, missing)
}

/// The text of an allowed record.
pub fn text(report: &Report) -> [u8; BYTES] {
    let mut text = [0; BYTES];
    write::write(&report.into(), &mut text).expect("an allowed record is written");
    text
}

/// The nine figures of an observation in the order of their fields.
pub fn figures(of: &mut ours::Observation) -> [&mut ours::Figure; 9] {
    let ours::Observation {
        latitude,
        longitude,
        time,
        altitude,
        temperature,
        wind_direction,
        wind_speed,
        gust,
        vapour,
        ..
    } = of;
    [latitude, longitude, time, altitude, temperature, wind_direction, wind_speed, gust, vapour]
}
