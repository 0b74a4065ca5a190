//! Document 01's figures, and a case for each code and place of a report; what goes up has its own files.

mod boards;
mod commands;
mod commutes;
mod decisions;
mod differences;
mod forms;
mod gusts;
mod joins;
mod journals;
mod offices;
mod parts;
mod reasons;
mod records;
mod sheets;
mod tails;
mod tracks;

use super::record::{Report, BYTES};
use super::{packed, report, write, Refusal};
use crate::figures::{Printed, PACKED, REPORT};

fn code(code: u8, place: u32) -> Refusal {
    Refusal { code, place }
}

#[test]
fn printed_packed_fields() {
    for (field, printed) in PACKED {
        let want = match printed {
            Printed::Figure(number) => Ok(Some(number)),
            Printed::Missing => Ok(None),
            Printed::Code(number, place) => Err(code(number, place)),
        };
        assert_eq!(packed::read(field), want, "{}", field.escape_ascii());
        if let Ok(figure) = want {
            let mut out = [b'#'; 8];
            assert_eq!(packed::write(figure.into(), field.len(), &mut out), Ok(field.len()));
            assert_eq!(&out[..field.len()], field);
            assert!(out[field.len()..].iter().all(|&byte| byte == b'#'));
        }
    }
}

#[test]
fn packed_spans_and_order() {
    let spans = [(1, 20), (2, 800), (3, 32_000), (4, 1_280_000), (5, 51_200_000)];
    for (width, half) in spans {
        let mut out = [0; 5];
        for figure in [-half, half - 1] {
            assert_eq!(packed::write(Some(figure).into(), width, &mut out), Ok(width));
            assert_eq!(packed::read(&out[..width]), Ok(Some(figure)));
        }
        for figure in [-half - 1, half, i32::MIN, i32::MAX] {
            assert_eq!(packed::write(Some(figure).into(), width, &mut []), Err(code(5, 0)));
        }
        assert_eq!(packed::write(Some(0).into(), width, &mut out[..width - 1]), Err(code(2, 0)));
    }
    assert_eq!(packed::write(Some(i32::MAX).into(), 6, &mut []), Err(code(1, 0)));
    assert_eq!(packed::write(None.into(), 0, &mut []), Err(code(1, 0)));
    assert_eq!(packed::read(b""), Err(code(1, 0)));
    assert_eq!(packed::read(b"     K"), Err(code(1, 0)));
}

#[test]
fn packed_bytes_not_allowed() {
    let fields: [(&[u8], u32); 22] = [
        (b" ", 0),
        (b"  ", 1),
        (b"     ", 4),
        (b"K ", 1),
        (b" K K", 2),
        (b"K  /", 1),
        (b"/K", 1),
        (b"/5", 1),
        (b"//// ", 4),
        (b"///K/", 3),
        (b"K/", 1),
        (b" /", 1),
        (b"  / K", 2),
        (b"    /", 4),
        (b"/ ", 1),
        (b"k", 0),
        (b"a5", 0),
        (b"5a", 1),
        (b" \0KK", 1),
        (b"\xff", 0),
        (b"K\x80", 1),
        (b"\0", 0),
    ];
    for (field, place) in fields {
        assert_eq!(packed::read(field), Err(code(4, place)), "{}", field.escape_ascii());
    }
}

/// Every field of 1 to 3 bytes, of all 256: the fields that code 4 spares are marked with all that they begin with, and
/// every other field's place is the first byte up to and with which it is no such beginning.
#[test]
fn every_place_of_code_4() {
    let number = |bytes: &[u8]| bytes.iter().fold(0, |number, &byte| number << 8 | usize::from(byte));
    for width in 1..=3 {
        let mut began: Vec<Vec<bool>> = (0..=width).map(|length| vec![false; 1 << (8 * length)]).collect();
        let fields = || (0..1u32 << (8 * width)).map(|number| number.to_be_bytes());
        let refused = |field: &[u8]| packed::read(field).err().filter(|refusal| refusal.code == 4);
        for bytes in fields() {
            let field = &bytes[4 - width..];
            if refused(field).is_none() {
                (1..=width).for_each(|length| began[length][number(&field[..length])] = true);
            }
        }
        for bytes in fields() {
            let field = &bytes[4 - width..];
            let first = (1..=width).find(|&length| !began[length][number(&field[..length])]);
            assert_eq!(refused(field), first.map(|length| code(4, length as u32 - 1)), "{}", field.escape_ascii());
        }
    }
}

fn changed(at: usize, bytes: &[u8]) -> [u8; BYTES] {
    let mut text = *REPORT;
    text[at..at + bytes.len()].copy_from_slice(bytes);
    text
}

#[test]
fn printed_report() {
    assert_eq!(report::check(REPORT), Ok(()));
    let read: Report = report::read(REPORT).unwrap();
    assert_eq!((&read.departure, &read.arrival, &read.designator), (b"ABCD", b"EFGH", b"XY0001"));
    let first = read.first;
    assert_eq!((first.kind, first.quality), (b'A', b'/'));
    assert_eq!([first.latitude, first.longitude, first.time, first.altitude], [Some(0); 4]);
    assert_eq!([first.temperature, first.wind_direction, first.wind_speed], [Some(0); 3]);
    assert_eq!([first.gust, first.vapour], [None; 2]);
    assert_eq!(read.later, [None; 7]);
    let mut out = [b'#'; 230];
    assert_eq!(write::write(&(&read).into(), &mut out), Ok(220));
    assert_eq!(&out[..220], REPORT);
    assert_eq!(out[220..], [b'#'; 10]);
    assert_eq!(write::write(&(&read).into(), &mut out[..219]), Err(code(2, 0)));
}

#[test]
fn report_codes_and_places() {
    assert_eq!(report::check(b""), Err(code(1, 0)));
    assert_eq!(report::check(&REPORT[..219]), Err(code(1, 0)));
    let later = b"R K K  K  K K K K K  K0";
    let cases: [(usize, &[u8], Option<Refusal>); 28] = [
        (3, b"d", Some(code(4, 0))),
        (7, b"/", Some(code(4, 4))),
        (9, b"\r", Some(code(3, 8))),
        (15, b"4", Some(code(3, 10))),
        (21, b"-", Some(code(4, 16))),
        (22, b"\n\r", Some(code(3, 22))),
        (24, b"/", Some(code(4, 24))),
        (25, b"/  ", Some(code(4, 26))),
        (25, b"   ", Some(code(4, 27))),
        (31, b"   K ", Some(code(4, 35))),
        (47, b"a//", Some(code(4, 47))),
        (28, b" 00", None),
        (28, b".00", Some(code(5, 28))),
        (31, b"    J", Some(code(5, 31))),
        (36, b" KK", None),
        (36, b"KJ5", Some(code(6, 36))),
        (41, b"J.", Some(code(6, 41))),
        (41, b"//", Some(code(7, 43))),
        (43, b"//", Some(code(7, 43))),
        (43, b"/ ", Some(code(4, 44))),
        (50, b":", Some(code(4, 50))),
        (60, b"X", Some(code(7, 51))),
        (74, b"/", Some(code(3, 74))),
        (76, b"A", Some(code(7, 76))),
        (76, b"X", Some(code(4, 76))),
        (51, later, None),
        (51, b"R K K  /  K K K K K  K0", Some(code(4, 58))),
        (51, b"R//////////////////////", None),
    ];
    for (at, bytes, want) in cases {
        let text = changed(at, bytes);
        assert_eq!(report::check(&text).err(), want, "{} at {at}", bytes.escape_ascii());
        assert_eq!(report::read(&text).err(), want, "{} at {at}", bytes.escape_ascii());
    }
}

#[test]
fn records_not_allowed() {
    let read = report::read(REPORT).unwrap();
    let mut one_sided = read;
    one_sided.first.wind_speed = None;
    let mut high = read;
    high.first.time = Some(2_678_400);
    let mut behind = read;
    behind.later[3] = Some(read.first);
    let mut unnamed = read;
    unnamed.designator[5] = b' ';
    let mut doubtful = read;
    doubtful.first.quality = b'.';
    let cases = [
        (one_sided, code(7, 43)),
        (high, code(5, 31)),
        (behind, code(7, 124)),
        (unnamed, code(4, 16)),
        (doubtful, code(4, 50)),
    ];
    for (record, want) in cases {
        let mut out = [b'#'; 220];
        assert_eq!(write::write(&(&record).into(), &mut out), Err(want));
        assert_eq!(write::write(&(&record).into(), &mut []), Err(want));
        assert_eq!(out, [b'#'; 220]);
    }
}
