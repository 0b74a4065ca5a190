//! When order is of no account: document 02, §12.

use super::code;
use super::commands::{longest, H2, H3, H7};
use super::joins::joined;
use crate::figures::{JOIN, NO_CHANGE};
use crate::make::uplink::{command, configuration, short_command, text};
use crate::random::Random;
use crate::second::command::read;
use crate::second::commute::{commute, Clash};
use crate::second::config::{apply, reset};
use crate::second::join::Fault;
use crate::second::settings::{Command, Configuration, MOST};

fn clash(flags: &[usize], sections: &[usize]) -> Clash {
    Clash {
        flags: std::array::from_fn(|index| flags.contains(&index)),
        sections: std::array::from_fn(|index| sections.contains(&(index + 2))),
    }
}

#[test]
fn printed_commands() {
    let [first, second, both] = JOIN;
    assert_eq!(commute(first, second), Ok(clash(&[], &[4])));
    assert_eq!(commute(second, both), Ok(clash(&[], &[])));
    assert_eq!(commute(first, both), Ok(clash(&[], &[4])));
    for text in [first, second, both, longest().as_bytes(), NO_CHANGE] {
        assert!(commute(text, text).unwrap().none());
        assert!(commute(text, NO_CHANGE).unwrap().none());
        assert!(commute(NO_CHANGE, text).unwrap().none());
    }
}

#[test]
fn flags_and_sections() {
    let all = "AWR040101010000000000/";
    assert_eq!(commute(all.as_bytes(), b"AWR041010101000000000/"), Ok(clash(&[0, 1, 2, 3, 4, 5, 6], &[])));
    assert_eq!(commute(all.as_bytes(), b"AWR049919190000000000/"), Ok(clash(&[2, 4], &[])));
    let mut other = longest();
    for (section, from, to) in [(6, "1/1040", "0/1040"), (7, "104020021/", "004020021/"), (9, "2301/", "2302/")] {
        let changed = longest().replace(from, to);
        assert_eq!(commute(longest().as_bytes(), changed.as_bytes()), Ok(clash(&[], &[section])), "{section}");
        other = other.replace(from, to);
    }
    assert_eq!(commute(longest().as_bytes(), other.as_bytes()), Ok(clash(&[], &[6, 7, 9])));
    let [east, west] = ["180E", "180W"].map(|edge| format!("{H2}0110N10S170E{edge}00/"));
    assert_eq!(commute(east.as_bytes(), west.as_bytes()), Ok(clash(&[], &[2])), "one meridian, two contents");
    let [one, two] = ["01ABCD0000000/", "02ABCDABCD0000000/"].map(|section| format!("{H3}{section}"));
    assert_eq!(commute(one.as_bytes(), two.as_bytes()), Ok(clash(&[], &[3])), "repeats are kept");
    assert_eq!(commute(one.as_bytes(), format!("{H7}004020011/").as_bytes()), Ok(clash(&[], &[])));
    for digits in [["0", "2"], ["1", "2"], ["2", "1"]] {
        let [one, other] = digits.map(|digit| format!("AWR041999999{digit}00000000/"));
        assert!(commute(one.as_bytes(), other.as_bytes()).unwrap().none(), "the downlink digit plays no part");
    }
}

#[test]
fn refusals_in_order() {
    let long = [b'x'; MOST + 1];
    let cases: [([&[u8]; 2], u8, _); 5] = [
        ([b"", &long], 1, code(8, 0)),
        ([&long, b""], 1, code(1, 0)),
        ([NO_CHANGE, &long], 2, code(1, 0)),
        ([NO_CHANGE, b"AWR04"], 2, code(8, 5)),
        ([b"AWR042", b""], 1, code(4, 5)),
    ];
    for ([first, second], text, refusal) in cases {
        assert_eq!(commute(first, second), Err(Fault { text, refusal }));
    }
}

/// The same by the records: members that both set and that differ.
fn by_records(one: &Command, other: &Command) -> Clash {
    let [a, b] = [&one.sections, &other.sections];
    let differ = [
        a.boxes != b.boxes,
        a.airfields != b.airfields || a.airports != b.airports,
        a.enroute != b.enroute,
        a.ascent != b.ascent,
        a.routine6 != b.routine6,
        a.descent != b.descent,
        a.routine8 != b.routine8,
        a.hours != b.hours,
    ];
    Clash {
        flags: std::array::from_fn(|index| matches!([one.flags[index], other.flags[index]], [0, 1] | [1, 0])),
        sections: std::array::from_fn(|index| differ[index] && one.named[index] != 0 && other.named[index] != 0),
    }
}

fn after(held: &Configuration, texts: [&[u8]; 2]) -> Configuration {
    let mut held = *held;
    texts.into_iter().for_each(|text| assert!(apply(&mut held, text).is_ok()));
    held
}

/// The request's sentences on random pairs: the same configuration in both orders exactly where nothing clashes, and then
/// the same joined bytes; a join with itself; an earlier copy of the second in front of a join.
#[test]
fn the_law() {
    let mut random = Random::new(1, "commutes");
    let mut yes = 0;
    for turn in 0..20_000 {
        let make = if turn % 2 == 0 { command } else { short_command };
        let [one, other] = [text(&make(&mut random)), text(&make(&mut random))];
        let other = if turn % 5 == 0 { joined(&one, &other) } else { other };
        let clash = commute(&one, &other).unwrap();
        assert_eq!(clash, by_records(&read(&one).unwrap(), &read(&other).unwrap()));
        assert_eq!(commute(&other, &one), Ok(clash));
        for held in [reset(), configuration(&mut random)] {
            let same = after(&held, [&one, &other]) == after(&held, [&other, &one]);
            assert_eq!(same, clash.none(), "{} {}", one.escape_ascii(), other.escape_ascii());
        }
        assert_eq!(joined(&one, &other) == joined(&other, &one), clash.none());
        assert_eq!(joined(&one, &one), one);
        let both = joined(&one, &other);
        assert_eq!(joined(&other, &both), both);
        yes += usize::from(clash.none());
    }
    assert!((2_000..18_000).contains(&yes), "{yes}");
}
