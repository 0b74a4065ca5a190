//! Records whose members are of another form than their one: each member, and beside faults that a field's own check finds.

use super::code;
use crate::figures::REPORT;
use crate::second::raw::{Figure, Observation, Report};
use crate::second::{packed, report, write, Refusal};

/// Where the fields of an observation stand: its kind, nine figures and quality.
const FIRST: [u32; 11] = [24, 25, 28, 31, 36, 39, 41, 43, 45, 47, 50];
const LATER: [u32; 11] = [0, 1, 3, 5, 8, 11, 13, 15, 17, 19, 22];
const PARTS: [u32; 7] = [51, 76, 99, 124, 147, 172, 195];

const GIVENS: [u32; 8] = [2, 3, 256, 257, 1 << 16, (1 << 16) + 1, 1 << 31, u32::MAX];
const NUMBERS: [i32; 6] = [1, -1, 256, 1 << 16, i32::MIN, i32::MAX];
const PRESENTS: [u16; 6] = [2, 3, 256, 257, 1 << 15, u16::MAX];
const ZERO: Figure = Figure { number: 0, given: 1 };

/// Eight observations, every figure given.
fn full() -> Report {
    let mut full = Report::from(&report::read(REPORT).unwrap());
    full.first.figures = [ZERO; 9];
    full.later = [full.first; 7];
    full
}

fn observation(report: &mut Report, index: usize) -> &mut Observation {
    match index {
        0 => &mut report.first,
        _ => &mut report.later[index - 1],
    }
}

fn place(index: usize, field: usize) -> u32 {
    match index {
        0 => FIRST[field],
        _ => PARTS[index - 1] + LATER[field],
    }
}

/// Refused in every room, and nothing is written.
fn refused(report: &Report, want: Refusal, what: &str) {
    for room in [0, 219, 220, 230] {
        let mut out = [b'#'; 230];
        assert_eq!(write::write(report, &mut out[..room]), Err(want), "{what}, room {room}: {report:?}");
        assert_eq!(out, [b'#'; 230]);
    }
}

#[test]
fn the_one_form_is_written() {
    assert_eq!(write::write(&full(), &mut [0; 220]), Ok(220));
    let mut printed = Report::from(&report::read(REPORT).unwrap());
    assert_eq!(printed.later, [Observation::default(); 7]);
    assert_eq!(printed.first.figures[7..], [Figure::default(); 2]);
    assert_eq!(write::write(&printed, &mut [0; 220]), Ok(220));
    printed.later[0] = printed.first;
    assert_eq!(write::write(&printed, &mut [0; 220]), Ok(220));
    refused(&Report::default(), code(4, 0), "all zero");
}

#[test]
fn figures() {
    for index in 0..8 {
        for field in 1..10 {
            let with = |figure, want, what| {
                let mut report = full();
                observation(&mut report, index).figures[field - 1] = figure;
                refused(&report, code(want, place(index, field)), what);
            };
            for given in GIVENS {
                with(Figure { number: 0, given }, 7, "given neither 0 nor 1");
                with(Figure { number: i32::MIN, given }, 5, "counts as given: its range comes first");
            }
            for number in NUMBERS {
                with(Figure { number, given: 0 }, 7, "missing with a number: no range");
            }
        }
    }
}

#[test]
fn presence() {
    for index in 0..8 {
        for present in PRESENTS {
            let mut report = full();
            observation(&mut report, index).present = present;
            refused(&report, code(7, place(index, 0)), "present neither 0 nor 1");
            observation(&mut report, index).figures[0].number = i32::MAX;
            refused(&report, code(7, place(index, 0)), "before its latitude");
            observation(&mut report, index).kind = b'/';
            refused(&report, code(4, place(index, 0)), "counts as present: its kind comes first");
        }
    }
    let mut report = full();
    report.first.present = 0;
    refused(&report, code(7, 24), "present 0 in the first");
    report.first.kind = 0;
    refused(&report, code(4, 24), "the first is looked at as present");
    report.first = Observation::default();
    refused(&report, code(4, 24), "the first, all 0");
}

#[test]
fn absent_beside_members() {
    for (later, at) in PARTS.into_iter().enumerate() {
        let with = |change: &dyn Fn(&mut Observation), before: bool| {
            let mut report = full();
            if before {
                report.later[..later].fill(Observation::default());
            }
            report.later[later] = Observation::default();
            change(&mut report.later[later]);
            refused(&report, code(7, at), "0 beside members that are not 0");
        };
        for before in [false, true] {
            for field in 0..9 {
                with(&|absent| absent.figures[field].number = i32::MIN, before);
                with(&|absent| absent.figures[field].given = 1, before);
                with(&|absent| absent.figures[field] = Figure { number: i32::MAX, given: 1 << 31 }, before);
            }
            with(&|absent| absent.kind = b'X', before);
            with(&|absent| absent.quality = b'/', before);
        }
    }
}

#[test]
fn behind_an_absent_one() {
    let mut report = full();
    report.later[2] = Observation::default();
    refused(&report, code(7, 124), "the record's own 7");
    report.later[3].present = 2;
    refused(&report, code(7, 124), "and the form's");
    report.later[3].kind = b'X';
    refused(&report, code(4, 124), "its kind before both");
    report.later[2].quality = b'0';
    refused(&report, code(7, 99), "the absent one's form is further left");
}

#[test]
fn spare_bytes() {
    for spare in [[1, 0], [0, 1], [255, 255], [0, 128]] {
        let mut report = full();
        report.spare = spare;
        refused(&report, code(7, 22), "spare");
        report.first.kind = b'X';
        refused(&report, code(7, 22), "before the first kind");
        report.designator[0] = b' ';
        refused(&report, code(4, 16), "behind the designator");
    }
}

#[test]
fn wind() {
    let other = Figure { number: 0, given: 2 };
    let lost = Figure { number: 9, given: 0 };
    let none = Figure::default();
    let cases = [
        ([other, none], 41),
        ([lost, ZERO], 41),
        ([lost, other], 41),
        ([none, other], 43),
        ([ZERO, lost], 43),
        ([none, lost], 43),
        ([ZERO, other], 43),
    ];
    for (wind, at) in cases {
        let mut report = full();
        report.first.figures[5..7].copy_from_slice(&wind);
        refused(&report, code(7, at), "wind");
        report.first.figures[6].number = 800;
        let range = at == 43 && wind[1].given != 0;
        refused(&report, code(if range { 5 } else { 7 }, at), "wind, and a speed out of its range");
    }
}

/// Fields from left to right: three names and spare, then eleven of each observation. Gives the place.
fn place_of(field: usize) -> u32 {
    match field {
        0..4 => [0, 4, 16, 22][field],
        _ => place((field - 4) / 11, (field - 4) % 11),
    }
}

/// Makes a field one that its own check refuses, and gives the code; spare has none.
fn own(report: &mut Report, field: usize) -> Option<u8> {
    match field {
        0 => report.departure[3] = b'd',
        1 => report.arrival[0] = 0,
        2 => report.designator[5] = 255,
        3 => return None,
        _ => {
            let of = observation(report, (field - 4) / 11);
            match (field - 4) % 11 {
                0 => of.kind = b'X',
                10 => of.quality = b':',
                figure => {
                    of.figures[figure - 1].number = i32::MAX;
                    return Some(5);
                }
            }
        }
    }
    Some(4)
}

/// Gives a field another form, if it has one.
fn other(report: &mut Report, field: usize) -> bool {
    match field {
        0..3 => return false,
        3 => report.spare[1] = 1,
        _ => {
            let of = observation(report, (field - 4) / 11);
            match (field - 4) % 11 {
                0 => of.present = 2,
                10 => return false,
                figure => of.figures[figure - 1].given = 2,
            }
        }
    }
    true
}

#[test]
fn the_fault_furthest_left() {
    let fields = 4 + 8 * 11;
    for form in 0..fields {
        for fault in 0..fields {
            let mut report = full();
            if !other(&mut report, form) {
                continue;
            }
            if let Some(own) = own(&mut report, fault) {
                let want = if fault <= form { code(own, place_of(fault)) } else { code(7, place_of(form)) };
                refused(&report, want, "an own fault and another form");
            }
            let mut report = full();
            if other(&mut report, form) && other(&mut report, fault) {
                refused(&report, code(7, place_of(form.min(fault))), "two of another form");
            }
        }
    }
}

#[test]
fn packed_figures() {
    let write = |number, given, width, room| {
        let mut out = [b'#'; 8];
        let answer = packed::write(Figure { number, given }, width, &mut out[..room]);
        assert_eq!(out, [b'#'; 8]);
        answer
    };
    for given in GIVENS {
        assert_eq!(write(5, given, 1, 1), Err(code(7, 0)));
        assert_eq!(write(5, given, 1, 0), Err(code(7, 0)), "7 before 2");
        assert_eq!(write(20, given, 1, 1), Err(code(5, 0)), "5 before 7");
        assert_eq!(write(20, given, 0, 1), Err(code(1, 0)), "1 before all");
    }
    for number in NUMBERS {
        assert_eq!(write(number, 0, 1, 8), Err(code(7, 0)), "missing: no range");
        assert_eq!(write(number, 0, 1, 0), Err(code(7, 0)), "7 before 2");
        assert_eq!(write(number, 0, 6, 8), Err(code(1, 0)), "1 before 7");
    }
    assert_eq!(write(0, 0, 1, 0), Err(code(2, 0)));
}
