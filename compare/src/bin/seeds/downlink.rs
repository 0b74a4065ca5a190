//! Seeds of packed figures, reports and gusts.

use desk_compare::figures::{sheet, PACKED, REPORT};
use desk_compare::make::{self, figure_of_digits, forms, record_of, text};
use desk_compare::meet;
use desk_compare::ours::{bytes_of, Figure};
use desk_compare::random::Random;

/// The fields that document 01 prints.
pub fn packed_read(_: &mut Random, index: usize) -> Vec<u8> {
    PACKED[index].0.to_vec()
}

/// A figure that fits a width, with room for it; a missing one; and one of each other form.
pub fn packed_write(random: &mut Random, index: usize) -> Vec<u8> {
    let width = 1 + index % 5;
    let number = figure_of_digits(random, width);
    let figure = match index {
        0..=8 => Figure { number, given: 1 },
        9 => Figure::default(),
        10 => Figure { number, given: 2 },
        _ => Figure { number: 1, given: 0 },
    };
    [bytes_of(&figure), &[width as u8, width as u8]].concat()
}

/// The printed report, and reports of every number of observations.
pub fn report_text(random: &mut Random, index: usize) -> Vec<u8> {
    match index {
        0 => REPORT.to_vec(),
        _ => text(&record_of(random, index % 8, 10 * (index % 3))).to_vec(),
    }
}

/// A record, with room for its text; the last ones have a member of another form.
pub fn report_write(random: &mut Random, index: usize) -> Vec<u8> {
    let mut record = meet::record(&record_of(random, index % 8, 10 * (index % 3)));
    if index >= 8 {
        forms::other(random, &mut record, &forms::formed());
    }
    [&[220], bytes_of(&record)].concat()
}

/// Row, height, mass, acceleration, speed: of three rows apart, with numbers such as are felt; and a row that is none.
pub fn gust(random: &mut Random, index: usize) -> Vec<u8> {
    let row = if index == 11 { 36 } else { 3 * index as i32 };
    let mass = random.between(2, 200) * 1000;
    let numbers = [row, random.between(-1000, 50_000), mass, random.between(0, 300), random.between(100, 350)];
    numbers.map(i32::to_le_bytes).concat()
}

/// The printed sheet, and others.
pub fn sheet_text(random: &mut Random, index: usize) -> Vec<u8> {
    match index {
        0 => sheet(),
        _ => make::sheet::text(&make::sheet::record(random)),
    }
}

/// Room, record: the last ones have a number that is not allowed.
pub fn sheet_write(random: &mut Random, index: usize) -> Vec<u8> {
    let mut record = meet::sheet(&make::sheet::record(random));
    match index {
        9 => record.level_interval = 1000,
        10 => record.boxes[9].status = 2,
        11 => record.airports[49].icao[3] = b' ',
        _ => {}
    }
    [&913u16.to_le_bytes()[..], bytes_of(&record)].concat()
}
