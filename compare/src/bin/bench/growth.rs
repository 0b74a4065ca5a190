//! How the cost grows: with the length of a text, for check, read and join, and with the used slots of a board, for add
//! and take. `make growth` draws the table.

use crate::boards::{adds, board, takes};
use crate::commands::{checks, reads};
use crate::joins::joins;
use desk_compare::make::uplink::{command_of, text, Lists, PARTS};
use desk_compare::random::Random;
use desk_compare::second::board::SLOTS;

/// Inputs of a point.
const INPUTS: usize = 64;

fn head(unit: &str) {
    println!("{:<8} {unit:>5} {:>10} {:>10} {:>7}", "call", "ours ns", "second ns", "ratio");
}

/// One line: the call, how much it was given, ns per call of both programs, their ratio.
fn line(call: &str, size: usize, calls: usize, windows: [f64; 2]) {
    let [ours, second] = windows.map(|window| window / calls as f64);
    println!("{call:<8} {size:>5} {ours:>10.1} {second:>10.1} {:>7.2}", ours / second);
}

/// Texts of one length each: the head alone, and then every section, with lists from empty to full.
fn sizes(random: &mut Random) -> Vec<Vec<Vec<u8>>> {
    let mut many = |bits, lists| (0..INPUTS).map(|_| text(&command_of(random, bits, lists))).collect();
    let mut sizes = vec![many(0, Lists::Empty)];
    sizes.extend((0..=PARTS).map(|part| many(0xff, Lists::Part(part))));
    sizes
}

/// A join is of a text with the next one of its length.
fn by_length(random: &mut Random) {
    head("bytes");
    for texts in &sizes(random) {
        let bytes = texts[0].len();
        line("check", bytes, INPUTS, checks(texts));
        line("read", bytes, INPUTS, reads(texts));
        let pairs: Vec<[&Vec<u8>; 2]> = texts.windows(2).map(|pair| [&pair[0], &pair[1]]).collect();
        line("join", bytes, pairs.len(), joins(&pairs));
    }
}

/// Boards whose used slots hold typical commands.
fn by_slots(random: &mut Random) {
    head("slots");
    let mut typical = || text(&command_of(random, 0x9d, Lists::Few));
    let waiting: Vec<_> = (0..SLOTS).map(|_| typical()).collect();
    let added: Vec<_> = (0..INPUTS).map(|_| typical()).collect();
    for used in (0..=SLOTS).step_by(4) {
        let board = board(&waiting[..used]);
        line("add", used, INPUTS, adds(&board, used, &added));
        line("take", used, INPUTS, takes(&board, used, INPUTS));
    }
}

pub fn table() {
    let mut random = Random::new(1, "bench-growth");
    by_length(&mut random);
    by_slots(&mut random);
}
