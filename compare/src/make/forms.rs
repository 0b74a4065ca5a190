//! The header's report record field by field, from left to right: any of them made one that its own check refuses, or
//! one of another form than its one.

use super::figures;
use crate::ours::{Figure, Observation, Report};
use crate::random::Random;
use crate::second::record::{FIRST_FIELDS, LATER_FIELDS};

/// Departure, arrival, designator, spare; then of each observation its kind, nine figures and quality.
pub const FIELDS: usize = NAMED + 8 * EACH;
const NAMED: usize = 4;
const SPARE: usize = 3;
const EACH: usize = 11;

const KIND: usize = 0;
const SPEED: usize = 7;
const QUALITY: usize = 10;

pub fn observation(report: &mut Report, index: usize) -> &mut Observation {
    match index {
        0 => &mut report.first,
        _ => &mut report.later[index - 1],
    }
}

/// Fields that have one form: spare, kinds, which stand for `present`, and figures.
pub fn formed() -> Vec<usize> {
    (0..FIELDS).filter(|&field| field == SPARE || field >= NAMED && (field - NAMED) % EACH != QUALITY).collect()
}

/// Fields that have a check of their own: all but spare.
pub fn checked() -> Vec<usize> {
    (0..FIELDS).filter(|&field| field != SPARE).collect()
}

/// Makes one of some fields one that its own check refuses.
pub fn wrong(random: &mut Random, report: &mut Report, among: &[usize]) {
    let field = random.of(among);
    let byte = random.of(b"a/: .`@[\0\r\x7f\x80\xff");
    match field {
        0 => report.departure[random.below(4)] = byte,
        1 => report.arrival[random.below(4)] = byte,
        2 => report.designator[random.below(6)] = byte,
        SPARE => (),
        _ => {
            let index = (field - NAMED) / EACH;
            let of = observation(report, index);
            match (field - NAMED) % EACH {
                KIND => of.kind = byte,
                QUALITY => of.quality = random.of(b":.A \0\xff"),
                SPEED if random.percent(30) => wrong_wind(random, of),
                place => {
                    let field = if index == 0 { FIRST_FIELDS } else { LATER_FIELDS }[place - 1];
                    let number = random.of(&[field.low - 1, field.high + 1, i32::MIN, i32::MAX]);
                    *figures(of)[place - 1] = Figure { number, given: 1 };
                }
            }
        }
    }
}

/// A direction without a speed, or the other way round.
fn wrong_wind(random: &mut Random, of: &mut Observation) {
    let given = Figure { number: random.between(0, 360), given: 1 };
    let none = Figure::default();
    (of.wind_direction, of.wind_speed) = random.of(&[(given, none), (none, given)]);
}

/// Gives one of some fields another form, if it has one; of an absent observation, any member of it. Most of the time a
/// figure or an observation that was there still counts as given or present, so that a fault of its own stays one.
pub fn other(random: &mut Random, report: &mut Report, among: &[usize]) {
    let field = random.of(among);
    match field {
        SPARE => report.spare = random.of(&[[1, 0], [0, 1], [255, 255], [0, 128], [b'\r', b'\n']]),
        NAMED.. => {
            let index = (field - NAMED) / EACH;
            let of = observation(report, index);
            match (field - NAMED) % EACH {
                _ if index > 0 && of.present == 0 => other_absent(random, of),
                KIND if random.percent(25) => of.present = 0,
                KIND => of.present = random.of(&[2, 3, 255, 256, 257, 1 << 15, u16::MAX]),
                QUALITY => (),
                place => other_figure(random, figures(of)[place - 1]),
            }
        }
        _ => (),
    }
}

/// Given neither 0 nor 1, or missing with a number.
fn other_figure(random: &mut Random, figure: &mut Figure) {
    if random.percent(75) {
        figure.given = random.of(&[2, 3, 255, 256, 257, 1 << 16, (1 << 16) + 1, 1 << 31, u32::MAX]);
    } else {
        *figure = Figure { number: nonzero(random), given: 0 };
    }
}

fn nonzero(random: &mut Random) -> i32 {
    match random.below(3) {
        0 => random.of(&[1, -1, 256, 1 << 16, i32::MIN, i32::MAX]),
        1 => random.between(1, 360),
        _ => random.next() as i32 | 1,
    }
}

/// An absent observation with one member, or all of them, not 0.
fn other_absent(random: &mut Random, of: &mut Observation) {
    match random.below(8) {
        0 => of.kind = 1 + random.below(255) as u8,
        1 => of.quality = 1 + random.below(255) as u8,
        2 => {
            for figure in figures(of) {
                *figure = Figure { number: random.next() as i32, given: random.below(3) as u32 };
            }
            (of.kind, of.quality) = (random.of(b"ADRWUEX/"), random.of(b"/09:"));
        }
        choice => {
            let figure = random.below(9);
            let [number, given] = random.of(&[[true, false], [false, true], [true, true]]);
            let figure: &mut Figure = figures(of)[figure];
            if number {
                figure.number = nonzero(random);
            }
            if given {
                figure.given = if choice == 3 { 1 << random.below(32) } else { random.of(&[1, 2, u32::MAX]) };
            }
        }
    }
}
