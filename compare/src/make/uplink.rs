//! Commands and configurations, and damages to commands' texts.

use super::{name, odd_byte};
use crate::random::Random;
use crate::second::settings::*;
use crate::second::spell;

/// How full lists are.
#[derive(Clone, Copy)]
pub enum Lists {
    Empty,
    Few,
    Any,
    /// So many `PARTS` of a full one.
    Part(usize),
    Full,
}

pub const PARTS: usize = 16;

fn length(random: &mut Random, lists: Lists, most: usize) -> usize {
    match lists {
        Lists::Empty => 0,
        Lists::Few => random.below(3),
        Lists::Any if random.percent(20) => random.of(&[0, 1, most - 1, most]),
        Lists::Any => random.below(most + 1),
        Lists::Part(parts) => most * parts / PARTS,
        Lists::Full => most,
    }
}

pub fn lists(random: &mut Random) -> Lists {
    random.of(&[Lists::Empty, Lists::Few, Lists::Few, Lists::Few, Lists::Any, Lists::Any, Lists::Full])
}

/// Degrees of either sign up to `most`, often at an end or at zero.
fn degrees(random: &mut Random, most: i32) -> i32 {
    match random.below(8) {
        0 => -most,
        1 => most,
        2 => 0,
        3 => random.between(-2, 2),
        _ => random.between(-most, most),
    }
}

pub fn edge(circle: &Circle, degrees: i32) -> Edge {
    let letter = if degrees < 0 { circle.below } else { circle.above };
    Edge { degrees: degrees.unsigned_abs() as u8, letter }
}

/// An allowed box; one in ten has no height, one in ten no width, and of the others every second goes over 180 degrees.
pub fn region(random: &mut Random) -> Region {
    let mut two = |most| {
        let one = degrees(random, most);
        [one, if random.percent(10) { one } else { degrees(random, most) }]
    };
    let ([one, other], [west, east]) = (two(90), two(180));
    let [south, north] = [one.min(other), one.max(other)];
    let [north, south] = [north, south].map(|degrees| edge(&LATITUDE, degrees));
    let [west, east] = [west, east].map(|degrees| edge(&LONGITUDE, degrees));
    Region { north, south, west, east }
}

fn boxes(random: &mut Random, lists: Lists) -> Boxes {
    let count = length(random, lists, 16);
    let entry = |index| if index < count { region(random) } else { Region::default() };
    Boxes { count: count as u8, entries: std::array::from_fn(entry) }
}

/// Airfields that come again and again, so that lists and questions meet.
pub const AIRFIELDS: [[u8; 4]; 6] = [*b"ABCD", *b"ABCE", *b"YMML", *b"0000", *b"ZZZ9", *b"DCBA"];

pub fn airfield(random: &mut Random) -> [u8; 4] {
    if random.percent(40) {
        random.of(&AIRFIELDS)
    } else {
        name(random)
    }
}

fn airfields(random: &mut Random, lists: Lists) -> Airfields {
    let count = length(random, lists, 20);
    let entry = |index| if index < count { airfield(random) } else { [0; 4] };
    Airfields { count: count as u8, entries: std::array::from_fn(entry) }
}

fn numbers<const N: usize>(random: &mut Random, row: &[Number; N]) -> [u16; N] {
    std::array::from_fn(|index| {
        let Number { low, high, .. } = row[index];
        match random.below(4) {
            0 => low,
            1 => high,
            _ => random.between(i32::from(low), i32::from(high)) as u16,
        }
    })
}

/// Every section, allowed.
fn sections(random: &mut Random, lists: Lists) -> Sections {
    Sections {
        boxes: [boxes(random, lists), boxes(random, lists)],
        airfields: std::array::from_fn(|_| airfields(random, lists)),
        airports: numbers(random, &ROUTINE),
        enroute: numbers(random, &ENROUTE),
        ascent: numbers(random, &ASCENT),
        routine6: numbers(random, &ROUTINE),
        descent: numbers(random, &DESCENT),
        routine8: numbers(random, &ROUTINE),
        hours: numbers(random, &HOURS),
    }
}

/// A command that names the sections whose bits are set, from that of section 2 on.
pub fn command_of(random: &mut Random, bits: u32, lists: Lists) -> Command {
    let all = sections(random, lists);
    let flags = flags(random, &[0, 1, 9]);
    named_of(&Command { flags, downlink: random.below(3) as u8, sections: all, ..Default::default() }, bits)
}

/// A command with those sections alone whose bits are set.
pub fn named_of(all: &Command, bits: u32) -> Command {
    let named = std::array::from_fn(|index| if bits >> index & 1 == 1 { index as u8 + 2 } else { 0 });
    let mut sections = Sections::default();
    copy_sections(&all.sections, &mut sections, bits);
    Command { named, sections, ..*all }
}

/// Puts those sections whose bits are set into the place of others.
pub fn copy_sections(from: &Sections, to: &mut Sections, bits: u32) {
    for number in (0..8).filter(|index| bits >> index & 1 == 1).map(|index| index + 2) {
        match number {
            2 => to.boxes = from.boxes,
            3 => (to.airfields, to.airports) = (from.airfields, from.airports),
            4 => to.enroute = from.enroute,
            5 => to.ascent = from.ascent,
            6 => to.routine6 = from.routine6,
            7 => to.descent = from.descent,
            8 => to.routine8 = from.routine8,
            _ => to.hours = from.hours,
        }
    }
}

fn flags(random: &mut Random, from: &[u8]) -> Flags {
    std::array::from_fn(|_| random.of(from))
}

/// An allowed command: short ones, long ones, and those that name every section.
pub fn command(random: &mut Random) -> Command {
    let bits = match random.below(8) {
        0 => 0,
        1 => 0xff,
        2 | 3 => 1 << random.below(8),
        _ => random.below(256) as u32,
    };
    let lists = lists(random);
    command_of(random, bits, lists)
}

/// A command as offices send them: a flag or two, one or two sections, few entries.
pub fn short_command(random: &mut Random) -> Command {
    let bits = if random.percent(30) { 0 } else { 1 << random.below(8) | 1 << random.below(8) };
    let mut command = command_of(random, bits, Lists::Few);
    let kept = random.below(7);
    for (index, flag) in command.flags.iter_mut().enumerate() {
        if index != kept {
            *flag = NO_CHANGE;
        }
    }
    command
}

/// The text of an allowed command.
pub fn text(command: &Command) -> Vec<u8> {
    let mut text = vec![0; MOST];
    let length = spell::write(command, &mut text).expect("an allowed command is written");
    text.truncate(length);
    text
}

pub fn full_text(random: &mut Random) -> Vec<u8> {
    let text = text(&command_of(random, 0xff, Lists::Full));
    assert_eq!(text.len(), MOST);
    text
}

pub fn configuration_of(random: &mut Random, lists: Lists) -> Configuration {
    Configuration { flags: flags(random, &[0, 1]), sections: sections(random, lists) }
}

pub fn configuration(random: &mut Random) -> Configuration {
    let lists = lists(random);
    configuration_of(random, lists)
}

/// Numbers at and past the ends of the ranges, as they would be spelt.
const SPELT: [&[u8]; 30] = [
    b"00", b"01", b"16", b"17", b"20", b"21", b"60", b"61", b"03", b"02", b"23", b"24", b"90", b"91", b"99", b"029",
    b"030", b"600", b"601", b"050", b"051", b"111", b"112", b"149", b"351", b"181", b"009", b"010", b"300", b"301",
];

/// One damage to a text; most leave its length as it is.
pub fn damage(random: &mut Random, text: &mut Vec<u8>) {
    if text.is_empty() {
        return text.push(odd_byte(random));
    }
    let at = random.below(text.len());
    match random.below(20) {
        0 => text.truncate(at),
        1 => text.insert(at, odd_byte(random)),
        2 => drop(text.remove(at)),
        3 => text.extend_from_slice(random.of(&[&b"/"[..], b"0", b"//", b"00/", b" "])),
        4 => text.resize(text.len() + random.below(20), b'0'),
        5 | 6 => put(text, 5 + random.below(17), &[random.of(b"012345678909/")]),
        7 | 8 => name_section(random, text),
        9..=11 => put(text, at, random.of(&SPELT)),
        12..=14 => spell_edge(random, text),
        15 => text[at] = random.of(b"0123456789"),
        16 => text[at] = b'/',
        17 => {
            let from = random.below(text.len());
            let part = text[from..text.len().min(from + random.below(30))].to_vec();
            put(text, at, &part);
        }
        _ => text[at] = odd_byte(random),
    }
}

/// Puts bytes over a text as far as it goes.
fn put(text: &mut [u8], at: usize, bytes: &[u8]) {
    for (to, from) in text.iter_mut().skip(at).zip(bytes) {
        *to = *from;
    }
}

/// An indicator made 0, its own number, or another.
fn name_section(random: &mut Random, text: &mut [u8]) {
    let number = 2 + random.below(8);
    let byte = if random.percent(80) { b'0' + number as u8 } else { random.of(b"0123456789") };
    put(text, INDICATOR + number, &[random.of(&[b'0', byte])]);
}

/// An edge made another one: at an end, over it, zero below zero, or with another letter.
fn spell_edge(random: &mut Random, text: &mut [u8]) {
    let edges: Vec<usize> =
        (HEAD + 3..text.len()).filter(|at| matches!(text[*at], b'N' | b'S' | b'E' | b'W')).collect();
    if edges.is_empty() {
        return;
    }
    let at = random.of(&edges);
    match random.below(4) {
        0 => text[at] = random.of(b"NSEW"),
        1 => text[at - 1] = b'0',
        _ => {
            let latitudes: [&[u8]; 5] = [b"00S", b"00N", b"90S", b"91N", b"01S"];
            let longitudes: [&[u8]; 5] = [b"000W", b"000E", b"180W", b"181E", b"001W"];
            let edge = random.of(if matches!(text[at], b'N' | b'S') { &latitudes } else { &longitudes });
            put(text, at + 1 - edge.len(), edge);
        }
    }
}
