//! Faults in the header's records of what goes up: each kind that a check looks for.

use super::odd_byte;
use crate::ours::of_bytes;
use crate::ours::uplink::{Airfields, Boxes, Command, Edge, Region, Settings};
use crate::random::Random;

/// Makes one member of a command something else; mostly it is then not allowed.
pub fn command(random: &mut Random, of: &mut Command) {
    let number = random.below(8);
    match random.below(9) {
        0 => of.settings.flags[random.below(7)] = random.of(&[2, 8, 10, b'0', b'1', b'9', 255, 9]),
        1 => of.downlink = random.of(&[3, 9, b'0', 255]),
        2 => {
            of.named[number] =
                random.of(&[0, 1, 7, 9, b'7', number as u8 + 1, number as u8 + 2, number as u8 + 3, b'2'])
        }
        3 => of.named[number] = 0,
        4 => of.spare = random.of(&[1, 2, 9, b'/', 128, 255]),
        _ => settings(random, &mut of.settings),
    }
}

/// Makes one member of a configuration something else.
pub fn settings(random: &mut Random, of: &mut Settings) {
    let at_end =
        |random: &mut Random, low: u8, high: u8| random.of(&[low.wrapping_sub(1), low, high, high + 1, 0, 255]);
    match random.below(17) {
        0..=3 => {
            let list = random.below(2);
            boxes(random, if list == 0 { &mut of.regions.reporting } else { &mut of.regions.inhibiting });
        }
        4..=7 => {
            let lists = [&mut of.airports.selected, &mut of.airports.inhibited];
            let [one, other] = lists.map(|phases| [&mut phases.ascent, &mut phases.descent]);
            let mut lists: Vec<_> = one.into_iter().chain(other).collect();
            let list = random.below(4);
            airfields(random, lists[list]);
        }
        8 => of.airports.routine = at_end(random, 0, 1),
        9 => of.enroute.interval = at_end(random, 1, 60),
        10 => of.enroute.wind = at_end(random, 0, 1),
        11 | 12 => ascent(random, of),
        13 => *random.of_mut([&mut of.routine6, &mut of.routine8]) = random.of(&[0, 1, 2, b'1', 255]),
        14 => descent(random, of),
        15 => *random.of_mut([&mut of.hours.start, &mut of.hours.end]) = random.of(&[0, 23, 24, 25, 255]),
        _ => of.flags[random.below(7)] = random.of(&[0, 1, 2, 9, 255]),
    }
}

impl Random {
    fn of_mut<'a, const N: usize>(&mut self, from: [&'a mut u8; N]) -> &'a mut u8 {
        let at = self.below(N);
        from.into_iter().nth(at).expect("one of them")
    }
}

fn ascent(random: &mut Random, of: &mut Settings) {
    let ascent = &mut of.ascent;
    match random.below(8) {
        0 => ascent.mode = random.of(&[0, 1, 2, b'0', 255]),
        1 => ascent.interval1 = random.of(&[0, 2, 3, 20, 21, 255]),
        2 => ascent.duration = random.of(&[0, 29, 30, 600, 601, 256, 0xffff, 999, 1000]),
        3 => ascent.interval2 = random.of(&[0, 2, 3, 60, 61, 255]),
        4 => ascent.total = random.of(&[0, 50, 51, 111, 112, 255]),
        5 => ascent.top = random.of(&[0, 149, 150, 350, 351, 256, 0xffff]),
        6 => ascent.list = random.of(&[0, 1, 2, 3, b'1', 255]),
        _ => ascent.timer = random.of(&[0, 1, 2, 255]),
    }
}

fn descent(random: &mut Random, of: &mut Settings) {
    let descent = &mut of.descent;
    match random.below(5) {
        0 => descent.mode = random.of(&[0, 1, 2, 256, 257, 0x3030, 0xffff]),
        1 => descent.interval = random.of(&[0, 9, 10, 300, 301, 256, 266, 999, 1000, 0xffff]),
        2 => descent.top = random.of(&[0, 149, 150, 350, 351, 256, 0xffff]),
        3 => descent.list = random.of(&[0, 1, 2, 3, b'1', 255]),
        _ => descent.timer = random.of(&[0, 1, 2, 255]),
    }
}

fn airfields(random: &mut Random, list: &mut Airfields) {
    let at = random.below(20);
    match random.below(5) {
        0 => list.count = random.of(&[0, 1, 19, 20, 21, 22, 63, 64, 65, 128, 255]),
        1 => list.count = list.count.wrapping_add(random.of(&[1, 255])),
        2 => list.names[at][random.below(4)] = odd_byte(random),
        3 => list.names[at] = random.of(&[[0; 4], *b"0000", *b"ABCD", [0, 0, 0, 1], *b"AB\0\0"]),
        _ => list.names.swap(at, random.below(20)),
    }
}

fn boxes(random: &mut Random, list: &mut Boxes) {
    let (at, other) = (random.below(16), random.below(16));
    let used = random.below(usize::from(list.count.clamp(1, 16)));
    match random.below(8) {
        0 => list.count = random.of(&[0, 1, 15, 16, 17, 31, 32, 128, 255]),
        1 => list.count = list.count.wrapping_add(random.of(&[1, 255])),
        2 => list.regions[at] = Region::default(),
        3 => list.regions.swap(at, other),
        4 => region(random, &mut list.regions[at]),
        _ => region(random, &mut list.regions[used]),
    }
}

fn region(random: &mut Random, region: &mut Region) {
    let Region { north, south, west, east } = region;
    match random.below(5) {
        0 => std::mem::swap(north, south),
        1 => std::mem::swap(west, east),
        _ => {
            let index = random.below(4);
            edge(random, [north, south, west, east].into_iter().nth(index).expect("one of four"));
        }
    }
}

fn edge(random: &mut Random, edge: &mut Edge) {
    match random.below(4) {
        0 => edge.letter = random.of(b"NSEWnX\0\xff"),
        1 => edge.degrees = random.of(&[0, 89, 90, 91, 179, 180, 181, 255]),
        2 => edge.degrees = 0,
        _ => *edge = Edge { degrees: random.byte(), letter: random.of(b"NSEW") },
    }
}

/// A configuration of any bytes at all.
pub fn noise(random: &mut Random) -> Settings {
    let bytes: Vec<u8> = (0..size_of::<Settings>()).map(|_| random.byte()).collect();
    of_bytes(&bytes)
}
