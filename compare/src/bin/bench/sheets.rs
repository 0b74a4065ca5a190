//! Rows of status sheets.

use crate::linked;
use crate::measure::{best, pass, Bench, INPUTS};
use desk_compare::make::sheet::{record, text};
use desk_compare::random::Random;
use desk_compare::second::sheet::{check, read, write, Sheet, BYTES};
use desk_compare::second::Refusal;
use desk_compare::{meet, ours};

#[inline(never)]
fn second_check(text: &[u8]) -> Result<(), Refusal> {
    check(text)
}

#[inline(never)]
fn second_read(text: &[u8]) -> Result<Sheet, Refusal> {
    read(text)
}

#[inline(never)]
fn second_write(sheet: &Sheet, out: &mut [u8]) -> Result<usize, Refusal> {
    write(sheet, out)
}

/// Sheets with numbers of every size in every field, half of their airports named.
pub fn rows(bench: &Bench) {
    let mut random = Random::new(1, "bench-sheet");
    let records: Vec<Sheet> = (0..INPUTS).map(|_| record(&mut random)).collect();
    let texts: Vec<Vec<u8>> = records.iter().map(text).collect();
    bench.row("status sheet check (256 sheets)", INPUTS, Some(BYTES), || {
        best(|| pass(&texts, |text| linked::sheet_check(text)), || pass(&texts, |text| second_check(text)))
    });
    bench.row("status sheet read (256 sheets)", INPUTS, Some(BYTES), || {
        best(|| pass(&texts, |text| linked::sheet_read(text)), || pass(&texts, |text| second_read(text)))
    });
    let ours: Vec<ours::Sheet> = records.iter().map(meet::sheet).collect();
    let (mut one, mut other) = ([0; BYTES], [0; BYTES]);
    bench.row("status sheet write (256 records)", INPUTS, Some(BYTES), || {
        best(
            || pass(&ours, |record| linked::sheet_write(*record, &mut one)),
            || pass(&records, |record| second_write(record, &mut other)),
        )
    });
}
