//! Rows of joins, and of the question whether their order counts.

use crate::linked::uplink as linked;
use crate::measure::{best, pass, Bench, INPUTS};
use desk_compare::make::uplink::{command_of, text, Lists};
use desk_compare::random::Random;
use desk_compare::second::commute::{commute, Clash};
use desk_compare::second::join::{join, Fault};
use desk_compare::second::settings::MOST;
use std::hint::black_box;

#[inline(never)]
fn second_join(first: &[u8], second: &[u8], out: &mut [u8]) -> Result<usize, Fault> {
    join(first, second, out)
}

#[inline(never)]
fn second_commute(first: &[u8], second: &[u8]) -> Result<Clash, Fault> {
    commute(first, second)
}

fn commutes(pairs: &[[Vec<u8>; 2]]) -> [f64; 2] {
    best(
        || pass(pairs, |[first, second]| linked::commute(first, second)),
        || pass(pairs, |[first, second]| second_commute(first, second)),
    )
}

/// Joins of pairs of texts.
pub fn joins<T: AsRef<[u8]>>(pairs: &[[T; 2]]) -> [f64; 2] {
    let (mut out, mut other) = ([0; MOST], [0; MOST]);
    best(
        || pass(pairs, |[first, second]| linked::join(first.as_ref(), second.as_ref(), black_box(&mut out))),
        || pass(pairs, |[first, second]| second_join(first.as_ref(), second.as_ref(), black_box(&mut other))),
    )
}

pub fn rows(bench: &Bench) {
    let mut random = Random::new(1, "bench-join");
    for (name, bits, lists) in [
        ("two short commands (22 bytes)".to_string(), 0, Lists::Empty),
        ("two typical commands".to_string(), 0x9d, Lists::Few),
        (format!("two full commands ({MOST} bytes)"), 0xff, Lists::Full),
    ] {
        let mut one = || text(&command_of(&mut random, bits, lists));
        let pairs: Vec<[Vec<u8>; 2]> = (0..INPUTS).map(|_| [one(), one()]).collect();
        let bytes = pairs.iter().flatten().map(Vec::len).sum::<usize>() / INPUTS;
        bench.row(&format!("join, {name}"), INPUTS, Some(bytes), || joins(&pairs));
        bench.row(&format!("either way round, {name}"), INPUTS, Some(bytes), || commutes(&pairs));
    }
}
