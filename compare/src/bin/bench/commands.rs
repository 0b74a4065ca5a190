//! Rows of commands.

use crate::linked::uplink as linked;
use crate::measure::{best, pass, Bench, INPUTS};
use desk_compare::make::uplink::{command_of, text, Lists};
use desk_compare::meet::uplink as meet;
use desk_compare::random::Random;
use desk_compare::second::settings::{Command, MOST};
use desk_compare::second::{command, spell, Refusal};
use std::hint::black_box;

#[inline(never)]
fn second_check(text: &[u8]) -> Result<(), Refusal> {
    command::check(text)
}

#[inline(never)]
fn second_read(text: &[u8]) -> Result<Command, Refusal> {
    command::read(text)
}

#[inline(never)]
fn second_write(record: &Command, out: &mut [u8]) -> Result<usize, Refusal> {
    spell::write(record, out)
}

pub fn checks(texts: &[Vec<u8>]) -> [f64; 2] {
    best(|| pass(texts, |text| linked::command_check(text)), || pass(texts, |text| second_check(text)))
}

pub fn reads(texts: &[Vec<u8>]) -> [f64; 2] {
    best(|| pass(texts, |text| linked::command_read(text)), || pass(texts, |text| second_read(text)))
}

fn writes(records: &[Command]) -> [f64; 2] {
    let raw: Vec<_> = records.iter().map(meet::command).collect();
    let (mut one, mut other) = ([0; MOST], [0; MOST]);
    best(
        || pass(&raw, |record| linked::command_write(record, black_box(&mut one))),
        || pass(records, |record| second_write(record, black_box(&mut other))),
    )
}

/// Commands of a size: head alone, about a hundred bytes (every section, few entries), full.
fn sizes(random: &mut Random) -> [(String, Vec<Command>); 3] {
    let mut many = |bits, lists| (0..INPUTS).map(|_| command_of(random, bits, lists)).collect();
    [
        ("22 bytes".to_string(), many(0, Lists::Empty)),
        ("about 100 bytes".to_string(), many(0xff, Lists::Few)),
        (format!("{MOST} bytes"), many(0xff, Lists::Full)),
    ]
}

pub fn rows(bench: &Bench) {
    let mut random = Random::new(1, "bench-command");
    for (size, records) in sizes(&mut random) {
        let texts: Vec<Vec<u8>> = records.iter().map(text).collect();
        let bytes = Some(texts.iter().map(Vec::len).sum::<usize>() / INPUTS);
        bench.row(&format!("command check, {size}"), INPUTS, bytes, || checks(&texts));
        bench.row(&format!("command read, {size}"), INPUTS, bytes, || reads(&texts));
        bench.row(&format!("command write, {size}"), INPUTS, bytes, || writes(&records));
    }
}
