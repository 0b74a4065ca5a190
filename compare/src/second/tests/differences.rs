//! What differs between two aircraft: document 02, §5.

use super::code;
use super::commands::{longest, SEVEN};
use crate::figures::NO_CHANGE;
use crate::make::uplink::{command, configuration, copy_sections, short_command, text};
use crate::random::Random;
use crate::second::command::read;
use crate::second::config::{apply, reset};
use crate::second::difference::difference;
use crate::second::settings::{Configuration, Edge, Region, MOST};

/// The items and the command.
fn differs(first: &Configuration, second: &Configuration) -> (Vec<u8>, Vec<u8>) {
    let mut out = vec![b'#'; MOST + 3];
    let (differs, length) = difference(first, second, &mut out).unwrap();
    assert!(out.split_off(length).iter().all(|byte| *byte == b'#'));
    (differs.items().collect(), out)
}

#[test]
fn plain() {
    let held = reset();
    assert_eq!(differs(&held, &held), (vec![], NO_CHANGE.to_vec()));
    type Change = fn(&mut Configuration);
    let cases: [(Change, &[u8], &str); 16] = [
        (|c| c.flags[0] = 0, &[1], "AWR040999999000000000/"),
        (|c| c.flags[1] = 1, &[2], "AWR049199999000000000/"),
        (|c| c.flags[6] = 0, &[7], "AWR049999990000000000/"),
        (|c| c.flags = [0, 1, 1, 1, 0, 0, 0], &[1, 2, 3, 4, 5, 6, 7], "AWR040111000000000000/"),
        (|c| c.sections.boxes[1] = one_box(), &[12], "AWR049999999020000000/000190N00N000E180W/"),
        (|c| c.sections.airfields[3].entries[0] = *b"ABCD", &[], ""),
        (
            |c| (c.sections.airfields[3].count, c.sections.airfields[3].entries[0]) = (1, *b"ABCD"),
            &[13],
            "AWR049999999003000000/00000001ABCD0/",
        ),
        (|c| c.sections.airports = [1], &[13], "AWR049999999003000000/000000001/"),
        (|c| c.sections.enroute = [7, 0], &[14], "AWR049999999000400000/070/"),
        (|c| c.sections.ascent[7] = 0, &[15], "AWR049999999000050000/1060902005120020/"),
        (|c| c.sections.routine6 = [0], &[16], "AWR049999999000006000/0/"),
        (|c| c.sections.descent = [0, 40, 200, 1, 1], &[17], "AWR049999999000000700/004020011/"),
        (|c| c.sections.routine8 = [0], &[18], "AWR049999999000000080/0/"),
        (|c| c.sections.hours = [23, 1], &[19], "AWR049999999000000009/2301/"),
        (
            |c| (c.flags[3], c.sections.hours[1], c.sections.enroute[0]) = (1, 1, 60),
            &[4, 14, 19],
            "AWR049991999000400009/601/0001/",
        ),
        (|c| (c.flags[4], c.sections.routine6) = (0, [0]), &[5, 16], "AWR049999099000006000/0/"),
    ];
    for (change, items, command) in cases {
        let mut other = held;
        change(&mut other);
        if command.is_empty() {
            assert_eq!(difference(&held, &other, &mut []).err(), Some(code(12, 0)));
            continue;
        }
        assert_eq!(differs(&held, &other), (items.to_vec(), command.as_bytes().to_vec()));
        let (back, _) = differs(&other, &held);
        assert_eq!(back, items);
    }
}

fn one_box() -> crate::second::settings::Boxes {
    let mut list = crate::second::settings::Boxes { count: 1, ..Default::default() };
    let edge = |degrees, letter| Edge { degrees, letter };
    list.entries[0] =
        Region { north: edge(90, b'N'), south: edge(0, b'N'), west: edge(0, b'E'), east: edge(180, b'W') };
    list
}

#[test]
fn everything() {
    let held = reset();
    let mut other = held;
    let all =
        longest().replace("AWR041111111", "AWR040111000").replace("1/1040", "0/1040").replace(SEVEN, "004020011/");
    let all = all.replace("1060902005120021/", "0060902005120021/").replace("222345", "202345");
    let mut all = all.into_bytes();
    all[12] = b'0';
    apply(&mut other, &all).unwrap();
    let (items, command) = differs(&held, &other);
    assert_eq!(items, [1, 2, 3, 4, 5, 6, 7, 12, 13, 14, 15, 16, 17, 18, 19]);
    assert_eq!(command, all);
    assert_eq!(command.len(), MOST);
}

#[test]
fn refusals_in_order() {
    let held = reset();
    let mut broken = held;
    broken.flags[2] = 9;
    let mut out = [b'#'; 30];
    for (first, second, room, want) in [
        (&broken, &held, 0, 12),
        (&held, &broken, 0, 12),
        (&broken, &broken, 30, 12),
        (&held, &held, 21, 2),
        (&held, &held, 0, 2),
    ] {
        assert_eq!(difference(first, second, &mut out[..room]), Err(code(want, 0)));
    }
    assert_eq!(out, [b'#'; 30]);
    assert!(difference(&held, &held, &mut out[..22]).is_ok());
}

/// The request's sentences on random pairs: the command makes the first into the second, sets what is listed and no more,
/// asks for nothing; and a command by which the second came about sets all of it.
#[test]
fn the_law() {
    let mut random = Random::new(1, "differences");
    let mut equal = 0;
    for turn in 0..20_000 {
        let first = configuration(&mut random);
        let mut second = first;
        let make = if turn % 2 == 0 { command } else { short_command };
        let by = make(&mut random);
        match turn % 4 {
            0 | 1 => drop(apply(&mut second, &text(&by)).unwrap()),
            2 => copy_sections(&by.sections, &mut second.sections, 0),
            _ => second = configuration(&mut random),
        }
        let (items, written) = differs(&first, &second);
        let mut made = first;
        assert_eq!(apply(&mut made, &written), Ok(0));
        assert_eq!(made, second);
        let command = read(&written).unwrap();
        let set = |flags: [u8; 7], named: [u8; 8]| -> Vec<u8> {
            let flags = (1..).zip(flags).filter(|(_, flag)| *flag != 9).map(|(item, _)| item);
            flags.chain(named.into_iter().filter(|number| *number != 0).map(|number| 10 + number)).collect()
        };
        assert_eq!(set(command.flags, command.named), items);
        if turn % 4 < 2 {
            assert!(items.iter().all(|item| set(by.flags, by.named).contains(item)));
        }
        assert_eq!(items.is_empty(), first == second);
        assert_eq!(items.is_empty(), written == NO_CHANGE);
        equal += usize::from(items.is_empty());
    }
    assert!((4_000..16_000).contains(&equal), "{equal}");
}
