//! Rows of single sections of commands of several lengths.

use crate::linked::uplink as linked;
use crate::measure::{best, pass, Bench, INPUTS};
use desk_compare::make::uplink::{command_of, text, Lists};
use desk_compare::random::Random;
use desk_compare::second::part::find;
use desk_compare::second::settings::MOST;
use desk_compare::second::Refusal;
use std::ops::Range;

#[inline(never)]
fn second_find(number: u8, text: &[u8]) -> Result<Range<usize>, Refusal> {
    find(number, text)
}

fn sections(number: u8, texts: &[Vec<u8>]) -> [f64; 2] {
    best(|| pass(texts, |text| linked::section(number, text)), || pass(texts, |text| second_find(number, text)))
}

/// The last section, with ever more in front of it; of 22 bytes it is not named.
pub fn rows(bench: &Bench) {
    let mut random = Random::new(1, "bench-section");
    for (size, bits, lists) in [
        ("22 bytes".to_string(), 0, Lists::Empty),
        ("about 100 bytes".to_string(), 0xff, Lists::Few),
        (format!("{MOST} bytes"), 0xff, Lists::Full),
    ] {
        let texts: Vec<Vec<u8>> = (0..INPUTS).map(|_| text(&command_of(&mut random, bits, lists))).collect();
        bench.row(&format!("section 9 of a command, {size}"), INPUTS, None, || sections(9, &texts));
    }
}
