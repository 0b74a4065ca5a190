//! Rows of the journal: up to 65,535 bytes of typical commands for several aircraft, and of the shortest entries.

use crate::linked::uplink as linked;
use crate::measure::{best, pass, Bench};
use desk_compare::figures::NO_CHANGE;
use desk_compare::make::journal::{aircraft, filled, ROUND};
use desk_compare::make::uplink::{command_of, text, Lists};
use desk_compare::meet::uplink as meet;
use desk_compare::random::Random;
use desk_compare::second::journal::{add, check, drop_last, last, print, replay, Entry, BYTES};
use desk_compare::second::settings::Configuration;
use desk_compare::second::{config, Refusal};
use std::hint::black_box;

/// Calls of a window: each goes through a whole journal.
const CALLS: usize = 16;
/// Aircraft whose entries a journal has.
const FLEET: usize = 8;

#[inline(never)]
fn second_check(buffer: &[u8], end: usize) -> Result<(), Refusal> {
    check(buffer, end)
}

#[inline(never)]
fn second_last(buffer: &[u8], end: usize) -> Result<Option<Entry<'_>>, Refusal> {
    last(buffer, end)
}

#[inline(never)]
fn second_add(buffer: &mut [u8], end: usize, of: &[u8], text: &[u8]) -> Result<usize, Refusal> {
    add(buffer, end, of, text)
}

#[inline(never)]
fn second_drop(buffer: &[u8], end: usize, count: usize) -> Result<usize, Refusal> {
    drop_last(buffer, end, count)
}

#[inline(never)]
fn second_print(buffer: &[u8], end: usize, out: &mut [u8]) -> Result<usize, Refusal> {
    print(buffer, end, out)
}

#[inline(never)]
fn second_replay(settings: &mut Configuration, buffer: &[u8], end: usize, of: &[u8]) -> Result<(), Refusal> {
    replay(settings, buffer, end, of)
}

fn checks(journal: &[u8]) -> [f64; 2] {
    let calls = [(); CALLS];
    best(
        || pass(&calls, |()| linked::journal_check(black_box(journal), journal.len())),
        || pass(&calls, |()| second_check(black_box(journal), journal.len())),
    )
}

/// Adds that fill the journal up to its last byte, each in the place of the one before.
fn adds(journal: &[u8], text: &[u8]) -> [f64; 2] {
    let (mut one, mut other) = (journal.to_vec(), journal.to_vec());
    let (end, of, calls) = (BYTES - text.len() - ROUND, aircraft(0), [(); CALLS]);
    best(
        || pass(&calls, |()| linked::journal_add(black_box(&mut one), end, &of, text)),
        || pass(&calls, |()| second_add(black_box(&mut other), end, &of, text)),
    )
}

fn drops(journal: &[u8], count: usize) -> [f64; 2] {
    let calls = [(); CALLS];
    best(
        || pass(&calls, |()| linked::journal_drop(black_box(journal), BYTES, count)),
        || pass(&calls, |()| second_drop(black_box(journal), BYTES, count)),
    )
}

fn prints(journal: &[u8]) -> [f64; 2] {
    let (mut one, mut other, calls) = (vec![0; 2 * BYTES], vec![0; 2 * BYTES], [(); CALLS]);
    best(
        || pass(&calls, |()| linked::journal_print(black_box(journal), BYTES, black_box(&mut one))),
        || pass(&calls, |()| second_print(black_box(journal), BYTES, black_box(&mut other))),
    )
}

fn replays(journal: &[u8]) -> [f64; 2] {
    let mut other = config::reset();
    let (mut one, calls) = (meet::configuration(&other), [(); CALLS]);
    let of = aircraft(1);
    best(
        || pass(&calls, |()| linked::journal_replay(black_box(&mut one), black_box(journal), BYTES, &of)),
        || pass(&calls, |()| second_replay(black_box(&mut other), black_box(journal), BYTES, &of)),
    )
}

/// Reads of the newest entry alone.
fn lasts(journal: &[u8]) -> [f64; 2] {
    let calls = [(); CALLS];
    best(
        || pass(&calls, |()| linked::journal_last(black_box(journal), BYTES)),
        || pass(&calls, |()| second_last(black_box(journal), BYTES)),
    )
}

pub fn rows(bench: &Bench) {
    let mut random = Random::new(1, "bench-journal");
    let typical = |random: &mut Random| text(&command_of(random, 0x9d, Lists::Few));
    let many = filled(&mut random, BYTES, FLEET, typical);
    let shortest = filled(&mut random, BYTES, FLEET, |_| NO_CHANGE.to_vec());
    let newest = many.starts[many.starts.len() - 1];
    let added = many.bytes[newest + 6..BYTES - 3].to_vec();
    for (name, bytes) in [("1 KB", 1 << 10), ("4 KB", 1 << 12), ("16 KB", 1 << 14)] {
        let part = filled(&mut random, bytes, FLEET, typical);
        bench.row(&format!("journal check, {name}"), CALLS, Some(bytes), || checks(&part.bytes));
    }
    bench.row("journal check, 64 KB", CALLS, Some(BYTES), || checks(&many.bytes));
    bench.row("journal check, 64 KB, shortest entries", CALLS, Some(BYTES), || checks(&shortest.bytes));
    bench.row("journal replay, 64 KB, one of 8 aircraft", CALLS, Some(BYTES), || replays(&many.bytes));
    bench.row("journal add, 64 KB", CALLS, Some(BYTES), || adds(&many.bytes, &added));
    bench.row("journal drop of half, 64 KB", CALLS, Some(BYTES), || drops(&many.bytes, many.starts.len() / 2));
    bench.row("journal print, 64 KB", CALLS, Some(BYTES), || prints(&many.bytes));
    bench.row("journal's newest entry", CALLS, None, || lasts(&many.bytes));
}
