//! The journal.

use super::code;
use super::commands::longest;
use crate::figures::{JOIN, NO_CHANGE};
use crate::make::uplink::{short_command, text};
use crate::random::Random;
use crate::second::config;
use crate::second::journal::*;
use crate::second::settings::{Configuration, MOST};
use crate::second::Refusal;

/// An entry's bytes, whatever its parts hold.
fn entry(designator: &[u8], text: &[u8]) -> Vec<u8> {
    [designator, text, &(text.len() as u16).to_be_bytes(), b"J"].concat()
}

fn journal<T: AsRef<[u8]>>(entries: &[(&[u8; 6], T)]) -> Vec<u8> {
    entries.iter().flat_map(|(designator, text)| entry(*designator, text.as_ref())).collect()
}

fn checked(bytes: &[u8]) -> Result<(), Refusal> {
    check(bytes, bytes.len())
}

fn printed(bytes: &[u8]) -> Result<Vec<u8>, Refusal> {
    let mut out = vec![b'#'; 100_000];
    let length = print(bytes, bytes.len(), &mut out)?;
    assert!(out[length..].iter().all(|byte| *byte == b'#'));
    for short in [0, length.saturating_sub(1)] {
        let mut room = vec![b'#'; short];
        let want = if short < length { Err(code(2, 0)) } else { Ok(length) };
        assert_eq!(print(bytes, bytes.len(), &mut room), want);
        assert!(room.iter().all(|byte| *byte == b'#'));
    }
    Ok(out[..length].to_vec())
}

fn replayed(bytes: &[u8], of: &[u8]) -> Result<Configuration, Refusal> {
    let mut settings = Configuration { flags: [7; 7], sections: Default::default() };
    let was = settings;
    let answer = replay(&mut settings, bytes, bytes.len(), of);
    assert!(answer.is_ok() || settings == was);
    answer.map(|()| settings)
}

#[test]
fn the_printed_journal() {
    let one = entry(b"XY0001", NO_CHANGE);
    assert_eq!((one.len(), &one[28..]), (31, &[0, 22, b'J'][..]));
    assert_eq!(checked(&one), Ok(()));
    assert_eq!(printed(&one).unwrap(), b"0 XY0001 AWR049999999000000000/\n");
    let entry = Entry { offset: 0, designator: b"XY0001", text: &NO_CHANGE[..] };
    assert_eq!(last(&one, 31), Ok(Some(entry)));
    assert_eq!(replayed(&one, b"XY0001"), Ok(config::reset()));
}

#[test]
fn the_empty_journal() {
    assert_eq!(checked(b""), Ok(()));
    assert_eq!(last(b"JJJ", 0), Ok(None));
    assert_eq!(printed(b"").unwrap(), b"");
    assert_eq!(replayed(b"", b"XY0001"), Ok(config::reset()));
    assert_eq!(drop_last(b"", 0, 0), Ok(0));
    assert_eq!(drop_last(b"", 0, 1), Err(code(5, 0)));
}

#[test]
fn newest_first() {
    let [a, b, _] = JOIN;
    let two = journal(&[(b"XY0001", a), (b"AB0002", b)]);
    let lines = format!("35 AB0002 {}\n0 XY0001 {}\n", b.escape_ascii(), a.escape_ascii());
    assert_eq!(printed(&two).unwrap(), lines.as_bytes());
    assert_eq!(last(&two, two.len()).unwrap().unwrap().offset, 35);
    assert_eq!(last(&two, 35).unwrap().unwrap().offset, 0);
}

/// Each kind of fault in the older of two entries and in the newer, with its place.
#[test]
fn faults_and_their_places() {
    let fine = entry(b"XY0001", NO_CHANGE);
    let mut wrong: Vec<(Vec<u8>, usize)> = Vec::new();
    for at in 0..6 {
        for byte in [b' ', b'a', b'/', b':', b'@', b'[', 0, 0xff] {
            let mut bytes = fine.clone();
            bytes[at] = byte;
            wrong.push((bytes, 28));
        }
    }
    for (at, byte) in [(6, b'B'), (27, b'0'), (28, 1), (29, 21), (29, 23), (30, b'K'), (30, b'j'), (28, 0xff)] {
        let mut bytes = fine.clone();
        bytes[at] = byte;
        wrong.push((bytes, 28));
    }
    wrong.push((entry(b"XY0001", b""), 6));
    wrong.push((entry(b"xy001", NO_CHANGE), 27));
    wrong.push((entry(b"", NO_CHANGE), 22));
    wrong.push((vec![0, 0, b'J'], 0));
    for (bytes, place) in wrong {
        let want = Err(code(14, place as u32));
        assert_eq!(checked(&bytes), want, "{}", bytes.escape_ascii());
        assert_eq!(last(&bytes, bytes.len()).map(|_| ()), want);
        assert_eq!(printed(&bytes).map(|_| ()), want);
        assert_eq!(drop_last(&bytes, bytes.len(), 9).map(|_| ()), want);
        assert_eq!(replayed(&bytes, b"").map(|_| ()), want);
        assert_eq!(checked(&[&bytes[..], &fine].concat()), want);
        assert_eq!(last(&[&bytes[..], &fine].concat(), bytes.len() + 31).map(|_| ()), Ok(()));
        assert_eq!(checked(&[&fine[..], &bytes].concat()), Err(code(14, 31 + place as u32)));
    }
}

/// A designator of five bytes takes the letter of the trailer before it for its first, and that trailer fails.
#[test]
fn a_designator_over_an_older_trailer() {
    let short = entry(b"XY001", NO_CHANGE);
    assert_eq!(checked(&short), Err(code(14, 27)));
    assert_eq!(checked(&[entry(b"XY0001", NO_CHANGE), short].concat()), Err(code(14, 27)));
}

/// A length that takes in what stands before the entry is that of another text.
#[test]
fn a_length_over_an_older_entry() {
    let mut two = journal(&[(b"XY0001", NO_CHANGE), (b"XY0002", NO_CHANGE)]);
    two[60] = 53;
    assert_eq!(checked(&two), Err(code(14, 59)));
}

#[test]
fn every_truncation() {
    let three = journal(&[(b"XY0001", &NO_CHANGE[..]), (b"XY0002", JOIN[0]), (b"XY0001", JOIN[1])]);
    for end in 0..=three.len() + 2 {
        let want = match end {
            0 | 31 | 66 => Ok(()),
            _ if end == three.len() => Ok(()),
            _ if end > three.len() => Err(code(14, 0)),
            _ => Err(code(14, end.saturating_sub(3) as u32)),
        };
        assert_eq!(check(&three, end), want, "{end}");
    }
    assert_eq!(check(&three, usize::MAX), Err(code(14, 0)));
}

/// Adds until nothing fits: 65,535 bytes are a journal, one more are none.
#[test]
fn limits() {
    let mut buffer = vec![b'#'; BYTES + 100];
    let (full, mut end) = (longest(), 0);
    while end + 2 * (full.len() + 9) <= BYTES {
        end = add(&mut buffer, end, b"XY0001", full.as_bytes()).unwrap();
    }
    while end + 31 + 35 <= BYTES {
        end = add(&mut buffer, end, b"XY0002", NO_CHANGE).unwrap();
    }
    let room = BYTES - end - 9;
    assert!((22..57).contains(&room), "{room}");
    let text: Vec<u8> = fitting(room);
    for (rooms, fits) in [(end + 9 + room - 1, false), (end + 9 + room, true), (buffer.len(), true)] {
        let mut copy = buffer[..rooms].to_vec();
        let want = if fits { Ok(BYTES) } else { Err(code(2, 0)) };
        assert_eq!(add(&mut copy, end, b"XY0003", &text), want);
        assert!(fits || copy == buffer[..rooms]);
    }
    assert_eq!(add(&mut buffer, end, b"XY0003", &text), Ok(BYTES));
    assert_eq!(check(&buffer, BYTES), Ok(()));
    assert_eq!(buffer[BYTES..], [b'#'; 100]);
    let was = buffer.clone();
    assert_eq!(add(&mut buffer, BYTES, b"XY0003", NO_CHANGE), Err(code(2, 0)));
    assert_eq!(buffer, was);
    assert_eq!(check(&buffer, BYTES + 1), Err(code(14, 0)));
    assert_eq!(check(&buffer[..BYTES - 1], BYTES), Err(code(14, 0)));
    assert_eq!(check(&buffer, 3), Err(code(14, 0)));
}

/// A text of a length from 22 to 56.
fn fitting(length: usize) -> Vec<u8> {
    let mut random = Random::new(1, "fitting");
    loop {
        let text = text(&short_command(&mut random));
        if text.len() == length {
            return text;
        }
    }
}

#[test]
fn order_of_refusals_when_adding() {
    let mut buffer = entry(b"XY0001", NO_CHANGE);
    assert_eq!(add(&mut buffer, 30, b"", b""), Err(code(14, 27)));
    for designator in [&b""[..], b"XY000", b"XY00011", b"XY000 ", b"xy0001"] {
        assert_eq!(add(&mut buffer, 31, designator, b""), Err(code(4, 0)));
        assert_eq!(replayed(&buffer, designator), Err(code(4, 0)));
    }
    assert_eq!(add(&mut buffer, 31, b"XY0001", b""), Err(code(8, 0)));
    assert_eq!(add(&mut buffer, 31, b"XY0001", b"AWR04"), Err(code(8, 5)));
    assert_eq!(add(&mut buffer, 31, b"XY0001", &[b'0'; MOST + 1]), Err(code(1, 0)));
    assert_eq!(add(&mut buffer, 31, b"XY0001", NO_CHANGE), Err(code(2, 0)));
    assert_eq!(buffer, entry(b"XY0001", NO_CHANGE));
    assert_eq!(add(&mut buffer, 0, b"XY0009", NO_CHANGE), Ok(31));
    assert_eq!(buffer, entry(b"XY0009", NO_CHANGE));
}

/// For every n: what is left is the journal of the first entries, and its replay is theirs, applied one by one.
#[test]
fn dropping_every_n_and_replaying() {
    let mut random = Random::new(1, "journals");
    for count in 0..24 {
        let names = [b"XY0001", b"XY0002", b"XY0003"];
        let entries: Vec<_> = (0..count).map(|_| (names[random.below(3)], text(&short_command(&mut random)))).collect();
        let all = journal(&entries);
        assert_eq!(drop_last(&all, all.len(), count + 1), Err(code(5, 0)));
        assert_eq!(drop_last(&all, all.len(), usize::MAX), Err(code(5, 0)));
        for dropped in 0..=count {
            let rest = &entries[..count - dropped];
            let left = drop_last(&all, all.len(), dropped).unwrap();
            assert_eq!(&all[..left], journal(rest));
            for name in [names[0], names[1], names[2], b"XY0004"] {
                let mut held = config::reset();
                for (_, text) in rest.iter().filter(|(of, _)| *of == name) {
                    config::apply(&mut held, text).unwrap();
                }
                assert_eq!(replayed(&all[..left], name), Ok(held));
            }
        }
    }
}
