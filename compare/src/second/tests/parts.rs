//! One section of a text: document 02, §7.

use super::code;
use super::commands::{longest, FIVE, SEVEN};
use crate::figures::{JOIN, NO_CHANGE};
use crate::make::uplink::{command, damage, text};
use crate::random::Random;
use crate::second::part::find;
use crate::second::settings::{Command, Sections, HEAD, MOST};
use crate::second::{command, spell, Refusal};

/// The part's bytes.
fn part(number: u8, text: &[u8]) -> Result<&[u8], Refusal> {
    find(number, text).map(|part| &text[part])
}

#[test]
fn numbers_outside_come_first() {
    for number in [0, 1, 10, 11, 254, 255] {
        for text in [&b""[..], NO_CHANGE, &[0; MOST + 1], longest().as_bytes()] {
            assert_eq!(find(number, text), Err(code(5, 0)), "{number}");
        }
    }
}

#[test]
fn code_1_and_the_header() {
    for number in 2..=9 {
        assert_eq!(find(number, &[longest().as_bytes(), b"/"].concat()), Err(code(1, 0)));
        for (text, want) in [
            ("", (8, 0)),
            ("AWR0", (8, 0)),
            ("AWR05", (3, 0)),
            ("AWR04", (8, 5)),
            ("AWR042", (4, 5)),
            ("AWR0499999993", (4, 12)),
            ("AWR049999999002000000/", (4, 14)),
            ("AWR049999999000000000", (8, 21)),
            ("AWR049999999000000000.", (3, 21)),
        ] {
            assert_eq!(find(number, text.as_bytes()), Err(code(want.0, want.1)), "{number} of {text}");
        }
        assert_eq!(find(number, NO_CHANGE), Ok(0..0));
        assert_eq!(find(number, &[&NO_CHANGE[..], b"????"].concat()), Ok(0..0), "nothing behind the header is read");
    }
}

/// What follows a header, the section asked for, and its bytes or the refusal.
type Corner = (&'static str, u8, Result<&'static str, (u8, u32)>);

/// The corners, of a text that names sections 2 and 3.
#[test]
fn counts_on_the_way() {
    let cases: [Corner; 29] = [
        ("", 2, Err((8, 22))),
        ("", 3, Err((8, 22))),
        ("", 4, Ok("")),
        ("0", 2, Err((8, 22))),
        ("x", 2, Err((8, 22))),
        ("xx", 2, Err((4, 22))),
        ("17", 2, Err((5, 22))),
        ("00", 2, Err((8, 24))),
        ("01", 2, Err((8, 22))),
        ("000", 2, Err((8, 24))),
        ("0017", 2, Err((5, 24))),
        ("00/0", 2, Err((4, 24))),
        ("0000", 2, Err((8, 22))),
        ("0000", 3, Err((8, 22))),
        ("0000?", 2, Ok("0000?")),
        ("0000?", 3, Err((8, 27))),
        ("01..............00?", 2, Ok("01..............00?")),
        ("01..............", 2, Err((8, 38))),
        ("01.............", 2, Err((8, 22))),
        ("01..............0", 2, Err((8, 38))),
        ("0000?0", 3, Err((8, 27))),
        ("0000?21", 3, Err((5, 27))),
        ("0000?00", 3, Err((8, 29))),
        ("0000?0001....", 3, Err((8, 35))),
        ("0000?0001...", 3, Err((8, 27))),
        ("0000?00000000", 3, Err((8, 27))),
        ("0000?00000000?", 3, Err((8, 27))),
        ("0000?00000000??", 3, Ok("00000000??")),
        ("0000?0001....0000??///", 3, Ok("0001....0000??")),
    ];
    for (rest, number, want) in cases {
        let text = format!("AWR049999999023000000/{rest}");
        let want = want.map(str::as_bytes).map_err(|(refused, place)| code(refused, place));
        assert_eq!(part(number, text.as_bytes()), want, "{number} of {rest}");
    }
}

/// A section that is passed over is measured, never read; what follows the one that is asked for is not looked at.
#[test]
fn short_sections() {
    let text = b"AWR049999999000456789/????XXXXXXXXXXXXXXXXX??YYYYYYYYYY??ZZZZZ";
    let parts = [(4, 22..26), (5, 26..43), (6, 43..45), (7, 45..55), (8, 55..57), (9, 57..62)];
    for (number, want) in &parts {
        for length in HEAD..=text.len() {
            let passed = parts.iter().take_while(|(other, _)| other <= number);
            let cut = passed.map(|(_, part)| part).find(|part| part.end > length);
            let want = cut.map_or(Ok(want.clone()), |part| Err(code(8, part.start as u32)));
            assert_eq!(find(*number, &text[..length]), want, "{number} of {length} bytes");
        }
    }
}

/// The bytes of a section of a record, spelt by themselves: a command that names it alone, without its header.
fn alone(number: u8, of: &Sections) -> Vec<u8> {
    let mut sections = Sections::default();
    match number {
        2 => sections.boxes = of.boxes,
        3 => (sections.airfields, sections.airports) = (of.airfields, of.airports),
        4 => sections.enroute = of.enroute,
        5 => sections.ascent = of.ascent,
        6 => sections.routine6 = of.routine6,
        7 => sections.descent = of.descent,
        8 => sections.routine8 = of.routine8,
        _ => sections.hours = of.hours,
    }
    let mut named = [0; 8];
    named[usize::from(number) - 2] = number;
    let one = Command { named, sections, ..Default::default() };
    let mut out = [0; MOST];
    let length = spell::write(&one, &mut out).unwrap();
    out[HEAD..length].to_vec()
}

/// "For every text that the full reader accepts it is the same section, or nothing exactly when the section isn't named."
#[test]
fn the_full_readers_section() {
    let mut random = Random::new(1, "parts");
    let made = (0..2000).map(|_| text(&command(&mut random)));
    let mut texts: Vec<Vec<u8>> = made.chain([longest().into_bytes()]).collect();
    texts.extend(JOIN.iter().map(|text| text.to_vec()));
    for text in texts {
        let record = command::read(&text).unwrap();
        for number in 2..=9 {
            let named = record.named[usize::from(number) - 2] != 0;
            let want = if named { alone(number, &record.sections) } else { Vec::new() };
            assert_eq!(part(number, &text), Ok(&want[..]), "{number} of {}", text.escape_ascii());
        }
    }
    assert_eq!(part(5, longest().as_bytes()), Ok(FIVE.as_bytes()));
    assert_eq!(part(7, longest().as_bytes()), Ok(SEVEN.as_bytes()));
}

/// Of damaged texts: where the finder refuses, the full reader does.
#[test]
fn what_the_finder_refuses_the_reader_refuses() {
    let mut random = Random::new(2, "parts");
    let mut refused = 0;
    for _ in 0..20_000 {
        let mut text = text(&command(&mut random));
        damage(&mut random, &mut text);
        for number in 2..=9 {
            if find(number, &text).is_err() {
                assert!(command::check(&text).is_err(), "{}", text.escape_ascii());
                refused += 1;
            }
        }
    }
    assert!(refused > 10_000, "{refused}");
}
