//! Journals: entries for the aircraft of a small fleet, one behind the other.

use super::uplink::{self, Lists};
use crate::random::Random;
use crate::second::join;
use crate::second::settings::{Airfields, MOST};

/// Bytes of an entry round its text.
pub const ROUND: usize = 9;

/// A journal's bytes, and where each of its entries begins.
#[derive(Clone, Default)]
pub struct Journal {
    pub bytes: Vec<u8>,
    pub starts: Vec<usize>,
}

impl Journal {
    /// Puts an entry behind the others.
    pub fn push(&mut self, designator: &[u8; 6], text: &[u8]) {
        self.starts.push(self.bytes.len());
        self.bytes.extend(designator);
        self.bytes.extend(text);
        self.bytes.extend((text.len() as u16).to_be_bytes());
        self.bytes.push(b'J');
    }
}

/// An aircraft of the fleet.
pub fn aircraft(index: usize) -> [u8; 6] {
    format!("AU{index:04}").as_bytes().try_into().expect("six bytes")
}

/// What is taken from a board: mostly short commands, some long ones, and some that several were joined into.
pub fn taken(random: &mut Random) -> Vec<u8> {
    match random.below(20) {
        0 => uplink::full_text(random),
        1..=3 => uplink::text(&uplink::command(random)),
        4 | 5 => joined(random),
        _ => short(random),
    }
}

pub fn short(random: &mut Random) -> Vec<u8> {
    uplink::text(&uplink::short_command(random))
}

/// Three commands joined.
fn joined(random: &mut Random) -> Vec<u8> {
    let mut text = uplink::text(&uplink::command(random));
    for _ in 0..2 {
        let mut out = vec![0; MOST];
        let next = uplink::text(&uplink::command(random));
        let length =
            join::join(&text, &next, &mut out).expect("accepted texts join within the longest command's bytes");
        out.truncate(length);
        text = out;
    }
    text
}

pub fn journal(random: &mut Random, entries: usize, fleet: usize, text: impl Fn(&mut Random) -> Vec<u8>) -> Journal {
    let mut journal = Journal::default();
    for _ in 0..entries {
        journal.push(&aircraft(random.below(fleet)), &text(random));
    }
    journal
}

/// Texts that `text_of` can make have 36 to 350 bytes.
const FIT: std::ops::RangeInclusive<usize> = 36..=350;

/// A text of exactly so many bytes: section 3 with as many airfields as fit, and section 6 or 9 or both for the rest.
pub fn text_of(random: &mut Random, length: usize) -> Vec<u8> {
    assert!(FIT.contains(&length));
    let rest = length - 32;
    let (bytes, bits) = [(0, 0), (5, 0x80), (2, 0x10), (7, 0x90)][rest % 4];
    let mut command = uplink::command_of(random, 0x02 | bits, Lists::Full);
    let mut airfields = (rest - bytes) / 4;
    for list in &mut command.sections.airfields {
        let count = airfields.min(20);
        let full = *list;
        *list = Airfields { count: count as u8, ..Default::default() };
        list.entries[..count].copy_from_slice(&full.entries[..count]);
        airfields -= count;
    }
    let text = uplink::text(&command);
    assert_eq!(text.len(), length);
    text
}

/// A journal of exactly so many bytes: none, or 45 at least.
pub fn filled(random: &mut Random, bytes: usize, fleet: usize, text: impl Fn(&mut Random) -> Vec<u8>) -> Journal {
    let mut journal = Journal::default();
    let (least, most) = (FIT.start() + ROUND, FIT.end() + ROUND);
    while journal.bytes.len() < bytes {
        let left = bytes - journal.bytes.len();
        let next = text(random);
        let next = match left {
            _ if next.len() + ROUND + least <= left => next,
            _ if left <= most => text_of(random, left - ROUND),
            _ => text_of(random, (left / 2).min(*FIT.end()) - ROUND),
        };
        journal.push(&aircraft(random.below(fleet)), &next);
    }
    journal
}
