//! Commands' texts: document 01's, and every code and place.

use super::code;
use crate::figures::{JOIN, NO_CHANGE};
use crate::second::settings::{Edge, MOST};
use crate::second::{command, spell};

/// Commands that name section 2, 3, 5 or 7 only, without the section.
pub const H2: &str = "AWR049999999020000000/";
pub const H3: &str = "AWR049999999003000000/";
pub const H5: &str = "AWR049999999000050000/";
pub const H7: &str = "AWR049999999000000700/";

/// Sections 5 and 7 as after reset.
pub const FIVE: &str = "1060902005120021/";
pub const SEVEN: &str = "104020021/";

/// The longest command: every list full.
pub fn longest() -> String {
    let box_ = "90N90S180W180E".repeat(16);
    let names = "ABCD".repeat(20);
    let [two, three] = [format!("16{box_}16{box_}/"), format!("20{names}20{names}20{names}20{names}1/")];
    format!("AWR041111111223456789/{two}{three}601/{FIVE}1/{SEVEN}0/2301/")
}

/// Check and read agree; an accepted text writes back the same bytes.
pub fn refusal(text: &[u8]) -> (u8, u32) {
    let read = command::read(text);
    assert_eq!(command::check(text).err(), read.err(), "{}", text.escape_ascii());
    match read {
        Ok(record) => {
            let mut out = [b'#'; 900];
            assert_eq!(spell::write(&record, &mut out), Ok(text.len()));
            assert_eq!(&out[..text.len()], text);
            assert!(out[text.len()..].iter().all(|&byte| byte == b'#'));
            assert_eq!(spell::write(&record, &mut out[..text.len() - 1]), Err(code(2, 0)));
            (0, 0)
        }
        Err(refusal) => (refusal.code, refusal.place),
    }
}

#[test]
fn printed_commands() {
    assert_eq!(refusal(NO_CHANGE), (0, 0));
    let record = command::read(NO_CHANGE).unwrap();
    assert_eq!((record.flags, record.downlink, record.named), ([9; 7], 0, [0; 8]));
    assert_eq!(record.sections, Default::default());
    assert!(JOIN.iter().all(|text| refusal(text) == (0, 0)));
    assert_eq!(refusal(b""), (8, 0));
    assert_eq!((longest().len(), refusal(longest().as_bytes())), (MOST, (0, 0)));
}

#[test]
fn what_the_longest_command_holds() {
    let record = command::read(longest().as_bytes()).unwrap();
    assert_eq!((record.flags, record.downlink, record.named), ([1; 7], 2, [2, 3, 4, 5, 6, 7, 8, 9]));
    let sections = record.sections;
    assert_eq!(sections.boxes[1].entries[15].south, Edge { degrees: 90, letter: b'S' });
    assert_eq!(sections.boxes[0].entries[0].west, Edge { degrees: 180, letter: b'W' });
    assert_eq!((sections.airfields[3].count, sections.airfields[3].entries[19]), (20, *b"ABCD"));
    assert_eq!((sections.airports, sections.enroute), ([1], [60, 1]));
    assert_eq!(sections.ascent, [1, 6, 90, 20, 51, 200, 2, 1]);
    assert_eq!(sections.descent, [1, 40, 200, 2, 1]);
    assert_eq!((sections.routine6, sections.routine8, sections.hours), ([1], [0], [23, 1]));
}

#[test]
fn heads() {
    let cases = [
        ("XX", (8, 0)),
        ("AWR0", (8, 0)),
        ("AWR05", (3, 0)),
        ("AWR04", (8, 5)),
        ("AWR042", (4, 5)),
        ("AWR0499999992", (8, 13)),
        ("AWR0499999993", (4, 12)),
        ("AWR049999999000000000", (8, 21)),
        ("AWR049999999000000000.", (3, 21)),
        ("AWR049999999000000000/x", (8, 22)),
        ("AWR049999999000000000//", (8, 22)),
        ("AWR049999999000000700/", (8, 22)),
        ("AWR049999999000000600/", (4, 18)),
        ("AWR049999999000000800/", (4, 18)),
        ("AWR049999999000000/00/", (4, 18)),
        ("AWR049999999002000000/", (4, 14)),
        ("AWR049999999030000000/", (4, 13)),
        ("AWR04999999900000000/", (4, 20)),
        ("AWR04999999/000000000/", (4, 11)),
    ];
    for (text, want) in cases {
        assert_eq!(refusal(text.as_bytes()), want, "{text}");
    }
    assert_eq!(refusal(&[b'x'; MOST + 1]), (1, 0));
    assert_eq!(refusal(&[b'x'; MOST]), (3, 0));
    assert_eq!(refusal(&[longest().as_bytes(), b"/"].concat()), (1, 0));
}

#[test]
fn sections_of_readings() {
    let cases = [
        (H2, "0110N11N181E000E00/", (7, 27)),
        (H2, "0110N10", (8, 27)),
        (H2, "0110N10N000W", (6, 30)),
        (H2, "0110N10N000W000E00/", (6, 30)),
        (H2, "0100S10S", (6, 24)),
        (H2, "01x0S", (4, 24)),
        (H2, "0199N", (5, 24)),
        (H2, "0199X", (4, 24)),
        (H2, "0191N90N", (5, 24)),
        (H2, "0110N10E", (4, 27)),
        (H2, "0110N20S180E180W00/", (0, 0)),
        (H2, "0110N20S170E170W00/", (0, 0)),
        (H2, "0110N20S001E000E00/", (0, 0)),
        (H2, "0110N20S170E181W00/", (5, 34)),
        (H2, "0110N20S170E000W00/", (6, 34)),
        (H2, "0110N20S180W180E00/", (0, 0)),
        (H2, "0110N20S180W181E00/", (5, 34)),
        (H2, "0110N20S18AW", (4, 30)),
        (H2, "0100N00N000E000E00/", (0, 0)),
        (H2, "0000/", (0, 0)),
        (H2, "0000", (8, 26)),
        (H2, "x", (8, 22)),
        (H2, "xx", (4, 22)),
        (H2, "17", (5, 22)),
        (H2, "0017", (5, 24)),
        (H2, "00000", (3, 26)),
        (H2, "0000//", (8, 27)),
        (H3, "02ABCDAB", (8, 28)),
        (H3, "02ABCDaBCD", (4, 28)),
        (H3, "000000001/", (0, 0)),
        (H3, "000000002/", (5, 30)),
        (H3, "00000000x/", (4, 30)),
        (H3, "21", (5, 22)),
        (H3, "02ABCDABCD0000001/", (0, 0)),
        ("AWR049999999000006000/", "2/", (5, 22)),
        ("AWR049999999000006000/", "//", (4, 22)),
        ("AWR049999999000006000/", "1/", (0, 0)),
        ("AWR049999999000000080/", "9/", (5, 22)),
        ("AWR049999999000000080/", "0/", (0, 0)),
        ("AWR049999999000400000/", "071", (8, 25)),
        ("AWR049999999000400000/", "000/", (5, 22)),
        ("AWR049999999000400000/", "610/", (5, 22)),
        ("AWR049999999000400000/", "072/", (5, 24)),
        ("AWR049999999000400000/", "07x/", (4, 24)),
        ("AWR049999999000000009/", "2400/", (5, 22)),
        ("AWR049999999000000009/", "0024/", (5, 24)),
        ("AWR049999999000000009/", "2323/", (0, 0)),
    ];
    for (head, section, want) in cases {
        assert_eq!(refusal(format!("{head}{section}").as_bytes()), want, "{head} {section}");
    }
}

/// Source document 003, Table 4.3.10.7-1, and the section that source document 000 prints.
#[test]
fn the_descent_section() {
    assert_eq!(refusal(format!("{H7}{SEVEN}").as_bytes()), (0, 0));
    assert_eq!(refusal(format!("{H7}004020011/").as_bytes()), (0, 0));
    let cases = [
        (0, "0", (0, 0)),
        (0, "2", (4, 22)),
        (0, "/", (4, 22)),
        (1, "009", (5, 23)),
        (1, "010", (0, 0)),
        (1, "300", (0, 0)),
        (1, "301", (5, 23)),
        (1, "0x0", (4, 23)),
        (4, "149", (5, 26)),
        (4, "150", (0, 0)),
        (4, "350", (0, 0)),
        (4, "351", (5, 26)),
        (4, "35:", (4, 26)),
        (7, "0", (4, 29)),
        (7, "1", (0, 0)),
        (7, "3", (4, 29)),
        (8, "0", (0, 0)),
        (8, "2", (4, 30)),
        (9, "I", (3, 31)),
    ];
    for (at, bytes, want) in cases {
        let mut section = SEVEN.to_string();
        section.replace_range(at..at + bytes.len(), bytes);
        assert_eq!(refusal(format!("{H7}{section}").as_bytes()), want, "{section}");
    }
    for (length, place) in [(0, 22), (1, 23), (3, 23), (4, 26), (6, 26), (7, 29), (8, 30), (9, 31)] {
        assert_eq!(refusal(format!("{H7}{}", &SEVEN[..length]).as_bytes()), (8, place), "{length} bytes");
    }
    assert_eq!(refusal(format!("AWR049999999000006780/1/{SEVEN}0/").as_bytes()), (0, 0), "between 6 and 8");
    assert_eq!(refusal(format!("AWR049999999000006780/1/0/{SEVEN}").as_bytes()), (4, 25));
}

#[test]
fn the_ascent_section() {
    assert_eq!(refusal(format!("{H5}{FIVE}").as_bytes()), (0, 0));
    let cases = [
        (0, "2", (4, 22)),
        (1, "02", (5, 23)),
        (1, "21", (5, 23)),
        (3, "029", (5, 25)),
        (3, "601", (5, 25)),
        (6, "02", (5, 28)),
        (6, "61", (5, 28)),
        (8, "050", (5, 30)),
        (8, "112", (5, 30)),
        (8, "11/", (4, 30)),
        (11, "149", (5, 33)),
        (11, "351", (5, 33)),
        (14, "0", (4, 36)),
        (14, "3", (4, 36)),
        (15, "2", (4, 37)),
        (16, "0", (3, 38)),
    ];
    for (at, bytes, want) in cases {
        let mut section = FIVE.to_string();
        section.replace_range(at..at + bytes.len(), bytes);
        assert_eq!(refusal(format!("{H5}{section}").as_bytes()), want, "{section}");
    }
}
