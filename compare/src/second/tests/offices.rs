//! Two offices on one board: document 02, §6.

use super::code;
use super::joins::joined;
use crate::figures::NO_CHANGE;
use crate::make::uplink::{command, named_of, short_command, text};
use crate::random::Random;
use crate::second::board::{self, take, Slot};
use crate::second::command::flags;
use crate::second::join::parts;
use crate::second::office::{add, Grant, EVERYTHING};
use crate::second::settings::{Command, MOST};

const FREE: Slot = Slot { designator: *b"######", length: 0 };
const NOTHING: Grant = Grant { flags: [false; 7], downlinks: false, sections: [false; 8] };

fn grant(flags: &[usize], sections: &[usize], downlinks: bool) -> Grant {
    Grant {
        flags: std::array::from_fn(|index| flags.contains(&index)),
        downlinks,
        sections: std::array::from_fn(|index| sections.contains(&(index + 2))),
    }
}

#[test]
fn grants_that_overlap() {
    let first = grant(&[0, 1], &[4], true);
    assert!(!first.overlaps(&grant(&[2, 6], &[2, 3, 5, 6, 7, 8, 9], false)));
    for other in [grant(&[1], &[], false), grant(&[], &[4], false), grant(&[], &[], true)] {
        assert!(first.overlaps(&other) && other.overlaps(&first));
        let (mut slots, mut area) = ([FREE; 65], [b'#'; 3]);
        let answer = add(&mut slots, &mut area, b"", b"", [&first, &other]);
        assert_eq!((answer, slots, area), (Err(code(13, 0)), [FREE; 65], [b'#'; 3]), "before any other code");
    }
}

#[test]
fn order_of_refusals() {
    let own = grant(&[0], &[4], false);
    let (mut slots, mut area) = ([FREE; 1], [b'#'; MOST]);
    let outside = b"AWR041199999000000000/";
    let mut ask =
        |of: &[u8], text: &[u8], bytes: usize| add(&mut slots, &mut area[..bytes], of, text, [&own, &NOTHING]);
    assert_eq!(ask(b"XY000a", outside, MOST - 1), Err(code(10, 0)));
    assert_eq!(ask(b"XY000a", outside, MOST), Err(code(4, 0)));
    assert_eq!(ask(b"XY0001", b"AWR041199999000000000", MOST), Err(code(8, 21)), "the command's own refusals");
    assert_eq!(ask(b"XY0001", outside, MOST), Err(code(13, 0)));
    assert_eq!(ask(b"XY0001", b"AWR041999999100000000/", MOST), Err(code(13, 0)), "a downlink");
    assert_eq!(ask(b"XY0001", b"AWR049999999000000009/2301/", MOST), Err(code(13, 0)), "a section");
    assert_eq!(ask(b"XY0001", b"AWR041999999000400000/151/", MOST), Ok(26));
    assert_eq!(ask(b"XY0002", outside, MOST), Err(code(13, 0)), "before 9");
    assert_eq!(ask(b"XY0002", NO_CHANGE, MOST), Err(code(9, 0)), "no change is in every grant");
}

/// The flags and sections of a grant in what waits for an aircraft; nothing waits: none is set.
fn own_part(slots: &[Slot], area: &[u8], of: &[u8], own: &Grant) -> ([u8; 7], Vec<Vec<u8>>) {
    let slot = slots.iter().position(|slot| slot.length > 0 && slot.designator == of);
    let Some(slot) = slot else {
        return ([9; 7], vec![vec![]; 8]);
    };
    let text = &area[slot * MOST..][..usize::from(slots[slot].length)];
    part(text, own)
}

fn part(text: &[u8], own: &Grant) -> ([u8; 7], Vec<Vec<u8>>) {
    let (flags, parts) = (flags(text), parts(text).unwrap());
    (
        std::array::from_fn(|index| if own.flags[index] { flags[index] } else { 9 }),
        (0..8).map(|index| if own.sections[index] { parts.section(index + 2).to_vec() } else { vec![] }).collect(),
    )
}

/// A command within a grant.
fn within(random: &mut Random, own: &Grant) -> Vec<u8> {
    let make = if random.percent(80) { short_command } else { command };
    let all: Command = make(random);
    let bits = (0..8).filter(|&index| own.sections[index] && all.named[index] != 0).map(|index| 1 << index).sum();
    let mut some = named_of(&all, bits);
    for index in 0..7 {
        if !own.flags[index] {
            some.flags[index] = 9;
        }
    }
    if !own.downlinks {
        some.downlink = 0;
    }
    text(&some)
}

/// What waits of an office's own is the join of its own accepted commands since the last hand-over, whatever the other sent.
#[test]
fn each_has_its_own() {
    let mut random = Random::new(1, "offices");
    let first = grant(&[0, 2, 4], &[2, 4, 7, 9], true);
    let second = grant(&[1, 3, 5, 6], &[3, 5, 6, 8], false);
    for _ in 0..300 {
        let (mut slots, mut area) = (vec![FREE; 2], vec![b'#'; 2 * MOST]);
        let mut sent: Vec<[Vec<Vec<u8>>; 2]> = vec![Default::default(); 3];
        for _ in 0..30 {
            let craft = random.below(3);
            let of = [b"XY0001", b"XY0002", b"XY0003"][craft];
            let office = random.below(2);
            let grants = [[&first, &second], [&second, &first]][office];
            if random.percent(15) {
                if take(&mut slots, &area, of, &mut [0; MOST]).is_ok() {
                    sent[craft] = Default::default();
                }
            } else {
                let text =
                    if random.percent(80) { within(&mut random, grants[0]) } else { text(&command(&mut random)) };
                let was = (slots.clone(), area.clone());
                let base = board::add(&mut was.0.clone(), &mut was.1.clone(), of, &text);
                let answer = add(&mut slots, &mut area, of, &text, grants);
                match answer {
                    Ok(_) => {
                        assert_eq!(answer, base);
                        sent[craft][office].push(text);
                    }
                    Err(refusal) => {
                        assert_eq!(was, (slots.clone(), area.clone()));
                        assert!(refusal.code == 13 || answer == base);
                    }
                }
            }
            for (office, own) in [&first, &second].into_iter().enumerate() {
                let all = sent[craft][office].iter().cloned().reduce(|all, text| joined(&all, &text));
                let all = all.unwrap_or_else(|| NO_CHANGE.to_vec());
                assert_eq!(own_part(&slots, &area, of, own), part(&all, own));
            }
        }
    }
}

/// One office that may do all, beside one that may do nothing, is the base's board.
#[test]
fn one_office() {
    let mut random = Random::new(2, "offices");
    let (mut slots, mut area) = (vec![FREE; 2], vec![b'#'; 2 * MOST]);
    for _ in 0..2_000 {
        let of = random.of(&[b"XY0001", b"XY0002", b"XY0003"]);
        let text = text(&command(&mut random));
        let mut was = (slots.clone(), area.clone());
        let base = board::add(&mut was.0, &mut was.1, of, &text);
        assert_eq!(add(&mut slots, &mut area, of, &text, [&EVERYTHING, &NOTHING]), base);
        assert_eq!(was, (slots.clone(), area.clone()));
        if random.percent(30) {
            let _ = take(&mut slots, &area, of, &mut [0; MOST]);
        }
    }
}
