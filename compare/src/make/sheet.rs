//! Status sheets: records with numbers of every size, and their texts.

use crate::make::name;
use crate::random::Random;
use crate::second::sheet::{write, Area, Port, Sheet, BYTES};

/// A number of a range: at a limit, of few digits, or any.
fn near(random: &mut Random, low: i32, high: i32) -> i32 {
    match random.below(4) {
        0 => random.of(&[low, high, low + 1, high - 1]),
        1 => random.of(&[-100, -99, -10, -9, -1, 0, 1, 9, 10, 99, 100, 999, 1000]).clamp(low, high),
        _ => random.between(low, high),
    }
}

/// A record that is allowed. Numbers are often at or beside their limits and of few digits.
pub fn record(random: &mut Random) -> Sheet {
    let mut number = |low, high| near(random, low, high);
    let mut of = Sheet {
        ascent: number(0, 1),
        a1: number(1, 99),
        a2: number(1, 99),
        level: number(0, 1),
        seconds: number(0, 999),
        descent: number(0, 1),
        d1: number(1, 99),
        d2: number(1, 99),
        tl1: number(0, 9999),
        tl2: number(0, 9999),
        n: number(0, 99),
        method: number(0, 2),
        profile: number(0, 9),
        cruise: number(0, 9),
        devg: number(0, 9),
        instant: number(0, 9),
        ..Sheet::default()
    };
    of.areas = std::array::from_fn(|_| Area {
        y1: number(-5400, 5400),
        x1: number(-10_800, 10_800),
        y2: number(-5400, 5400),
        x2: number(-10_800, 10_800),
        active: number(0, 1),
    });
    of.aircraft = name(random);
    of.ports = std::array::from_fn(|_| Port {
        icao: if random.percent(50) { *b"0000" } else { name(random) },
        active: random.below(2) as i32,
    });
    of
}

/// Its text.
pub fn text(of: &Sheet) -> Vec<u8> {
    let mut out = vec![0; BYTES];
    assert_eq!(write(of, &mut out), Ok(BYTES), "an allowed record");
    out
}
