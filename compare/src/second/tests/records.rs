//! Records that are not allowed, and the configuration: reset, validity, applying.

use super::code;
use super::commands::{longest, FIVE, H2, H3, SEVEN};
use crate::figures::NO_CHANGE;
use crate::second::settings::{Command, Configuration, Edge, MOST};
use crate::second::{command, config, spell, Refusal};

fn read(text: &str) -> Command {
    command::read(text.as_bytes()).unwrap()
}

#[test]
fn records_not_allowed() {
    type Change = fn(&mut Command);
    let cases: [(Change, Refusal); 43] = [
        (|c| c.flags[0] = 2, code(4, 5)),
        (|c| c.flags[6] = b'1', code(4, 11)),
        (|c| c.downlink = 3, code(4, 12)),
        (|c| c.named[0] = 3, code(4, 13)),
        (|c| c.named[5] = 6, code(4, 18)),
        (|c| c.named[0] = 0, code(7, 22)),
        (|c| c.named[1] = 0, code(7, 475)),
        (|c| c.named[2] = 0, code(7, 805)),
        (|c| c.named[3] = 0, code(7, 809)),
        (|c| c.named[4] = 0, code(7, 826)),
        (|c| c.named[5] = 0, code(7, 828)),
        (|c| c.named[7] = 0, code(7, 840)),
        (|c| c.sections.boxes[0].count = 17, code(5, 22)),
        (|c| c.sections.boxes[0].count = 15, code(7, 22)),
        (|c| c.sections.boxes[1].count = 0, code(7, 248)),
        (|c| c.sections.boxes[0].entries[0].north.letter = b'E', code(4, 24)),
        (|c| c.sections.boxes[0].entries[0].north.degrees = 91, code(5, 24)),
        (|c| c.sections.boxes[0].entries[0].south = Edge { degrees: 0, letter: b'S' }, code(6, 27)),
        (|c| c.sections.boxes[0].entries[0].north = Edge { degrees: 90, letter: b'S' }, code(0, 0)),
        (|c| c.sections.boxes[0].entries[0].south.letter = b'N', code(0, 0)),
        (|c| c.sections.boxes[0].entries[1].west = Edge { degrees: 180, letter: b'E' }, code(0, 0)),
        (|c| c.sections.boxes[0].entries[1].east = Edge { degrees: 179, letter: b'W' }, code(0, 0)),
        (|c| c.sections.airfields[0].count = 21, code(5, 475)),
        (|c| c.sections.airfields[3].count = 19, code(7, 721)),
        (|c| c.sections.airfields[0].entries[1] = [0; 4], code(4, 481)),
        (|c| c.sections.airports[0] = 2, code(5, 803)),
        (|c| c.sections.enroute[1] = 2, code(5, 807)),
        (|c| c.sections.ascent[0] = 2, code(4, 809)),
        (|c| c.sections.ascent[5] = 351, code(5, 820)),
        (|c| c.sections.descent[0] = 256, code(4, 828)),
        (|c| c.sections.descent[1] = 9, code(5, 829)),
        (|c| c.sections.descent[1] = 301, code(5, 829)),
        (|c| c.sections.descent[2] = 149, code(5, 832)),
        (|c| c.sections.descent[3] = 0, code(4, 835)),
        (|c| c.sections.descent[4] = 2, code(4, 836)),
        (|c| c.sections.hours[1] = 24, code(5, 842)),
        (|c| c.spare = 1, code(7, 21)),
        (|c| c.spare = 255, code(7, 21)),
        (|c| (c.spare, c.flags[6]) = (1, 2), code(4, 11)),
        (|c| (c.spare, c.downlink) = (1, 3), code(4, 12)),
        (|c| (c.spare, c.named[7]) = (1, 8), code(4, 20)),
        (|c| (c.spare, c.named[0]) = (1, 0), code(7, 21)),
        (|c| (c.spare, c.sections.boxes[0].count) = (1, 17), code(7, 21)),
    ];
    for (index, (change, want)) in cases.into_iter().enumerate() {
        let mut record = read(&longest());
        change(&mut record);
        let want = if want.code == 0 { None } else { Some(want) };
        assert_eq!(spell::write(&record, &mut [0; 900]).err(), want, "case {index}");
    }
}

#[test]
fn sides_of_a_box() {
    let mut record = read(&longest());
    record.sections.boxes[0].entries[0].north = Edge { degrees: 89, letter: b'S' };
    assert_eq!(spell::write(&record, &mut [0; 900]), Ok(MOST));
    record.sections.boxes[0].entries[0].south = Edge { degrees: 88, letter: b'S' };
    record.sections.boxes[0].entries[0].west = Edge { degrees: 0, letter: 0 };
    assert_eq!(spell::write(&record, &mut []), Err(code(7, 27)));
    record.sections.boxes[0].entries[0].south = Edge { degrees: 89, letter: b'S' };
    assert_eq!(spell::write(&record, &mut []), Err(code(4, 30)));
    record.sections.boxes[0].entries[0].west = Edge { degrees: 10, letter: b'E' };
    record.sections.boxes[0].entries[0].east = Edge { degrees: 10, letter: b'W' };
    assert_eq!(spell::write(&record, &mut [0; 900]), Ok(MOST), "over the date line");
    record.sections.boxes[0].entries[0].east = Edge { degrees: 0, letter: b'W' };
    assert_eq!(spell::write(&record, &mut []), Err(code(6, 34)));
}

#[test]
fn an_unnamed_section_begins_at_the_end_of_a_short_text() {
    let mut record = read("AWR049999999000400000/071/");
    record.sections.hours[0] = 1;
    assert_eq!(spell::write(&record, &mut []), Err(code(7, 26)));
    record.sections.airfields[2].entries[19] = *b"ABCD";
    assert_eq!(spell::write(&record, &mut []), Err(code(7, 22)));
}

#[test]
fn reset_as_printed() {
    let reset = config::reset();
    assert_eq!(config::valid(&reset), Ok(()));
    let mut held = Configuration { flags: [0; 7], ..config::reset() };
    held.sections.hours = [5, 6];
    held.sections.enroute = [60, 0];
    held.sections.descent = [0, 10, 350, 1, 0];
    let text = format!("AWR041000111023456789/0000/000000000/071/{FIVE}1/{SEVEN}1/0000/");
    assert_eq!(config::apply(&mut held, text.as_bytes()), Ok(0));
    assert_eq!(held, reset);
}

#[test]
fn applying() {
    let mut held = config::reset();
    assert_eq!(config::apply(&mut held, NO_CHANGE), Ok(0));
    assert_eq!(held, config::reset());
    assert_eq!(config::apply(&mut held, longest().as_bytes()), Ok(2));
    let full = held;
    assert_eq!((full.flags, full.sections), ([1; 7], read(&longest()).sections));
    assert_eq!(config::apply(&mut held, format!("{H2}0001" /* ends early */).as_bytes()), Err(code(8, 26)));
    assert_eq!(held, full);
    assert_eq!(config::apply(&mut held, format!("{H2}0110N10S010W010E00/").as_bytes()), Ok(0));
    assert_eq!((held.sections.boxes[0].count, held.sections.boxes[1].count), (1, 0));
    assert!(held.sections.boxes[0].entries[1..].iter().all(|region| *region == Default::default()));
    assert_eq!(held.sections.airfields, full.sections.airfields);
    assert_eq!(config::apply(&mut held, format!("{H3}0001ABCD00000/").as_bytes()), Ok(0));
    assert_eq!(held.sections.airfields.map(|list| list.count), [0, 1, 0, 0]);
    assert_eq!(held.flags, [1; 7]);
}

#[test]
fn validity() {
    type Change = fn(&mut Configuration);
    let cases: [Change; 10] = [
        |c| c.flags[3] = 9,
        |c| c.sections.boxes[1].entries[0].west.degrees = 1,
        |c| c.sections.boxes[0].count = 1,
        |c| c.sections.airfields[2].entries[19][3] = 1,
        |c| c.sections.enroute[0] = 0,
        |c| c.sections.ascent[6] = 0,
        |c| c.sections.descent[0] = 2,
        |c| c.sections.descent = [0; 5],
        |c| c.sections.routine8 = [2],
        |c| c.sections.hours[0] = 24,
    ];
    for (index, change) in cases.into_iter().enumerate() {
        let mut held = config::reset();
        change(&mut held);
        let was = held;
        assert_eq!(config::valid(&held), Err(code(12, 0)), "case {index}");
        assert_eq!(config::apply(&mut held, &[b'x'; 900]), Err(code(12, 0)), "12 before the text's 1");
        assert_eq!(held, was);
    }
}
