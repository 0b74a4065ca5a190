//! Families of commands' texts: check and read are compared, and an accepted one is written back.

use crate::queue;
use crate::run::{Done, Run};
use desk_compare::cases::command::Case;
use desk_compare::figures::{JOIN, NO_CHANGE};
use desk_compare::make::odd_byte;
use desk_compare::make::uplink::{self, Lists};
use desk_compare::random::Random;
use desk_compare::second::settings::MOST;

type Queue = queue::Queue<Case>;

pub fn families(run: &mut Run) {
    run.family("command-printed", "document 01's printed commands", |_, queue| {
        let printed = [&NO_CHANGE[..], b""].into_iter().chain(JOIN);
        printed.into_iter().try_for_each(|printed| text(queue, printed))
    });
    run.family("command-substitution", "every byte of 8 commands made every other", |random, queue| {
        shapes(random).iter().try_for_each(|shape| substitutions(shape, queue))
    });
    run.family("command-length", "every truncation and extensions to 900 bytes of 8 commands", |random, queue| {
        shapes(random).iter().try_for_each(|shape| lengths(shape, queue))
    });
    run.family("command-heads", "every indicator and flag byte, every choice of named sections", heads);
    run.family("command-numbers", "every digit string as every number of every section", numbers);
    run.family("command-edges", "every spelling of every edge of a box, five letters", edges);
    run.family("command-boxes", "every two latitudes and every two longitudes", boxes);
    random_families(run);
}

fn random_families(run: &mut Run) {
    let turns = run.turns(150_000);
    run.family("command-valid", "random valid commands", |random, queue| {
        for _ in 0..turns {
            text(queue, &uplink::text(&uplink::command(random)))?;
        }
        Ok(())
    });
    let turns = run.turns(300_000);
    run.family("command-damaged", "random commands, one to five damages each", |random, queue| {
        for _ in 0..turns {
            let mut damaged = uplink::text(&uplink::command(random));
            for _ in 0..1 + random.below(5) {
                uplink::damage(random, &mut damaged);
            }
            text(queue, &damaged)?;
        }
        Ok(())
    });
    let turns = run.turns(20_000);
    run.family("command-noise", "any bytes of any length up to 900, with and without a head", |random, queue| {
        for _ in 0..turns {
            let length = random.below(901);
            let mut noise: Vec<u8> = (0..length).map(|_| odd_byte(random)).collect();
            if random.percent(70) {
                let head = uplink::text(&uplink::command(random));
                noise.splice(..length.min(22), head[..22].iter().copied());
            }
            text(queue, &noise)?;
        }
        Ok(())
    });
}

fn text(queue: &mut Queue, text: &[u8]) -> Done {
    queue.case(Case::Text(text.to_vec()))
}

/// Commands of different shape: nothing named, the printed join, every section at its shortest, with few entries and
/// full, one with boxes alone, one with airfields alone, one without lists.
fn shapes(random: &mut Random) -> Vec<Vec<u8>> {
    let mut shape = |bits, lists| uplink::text(&uplink::command_of(random, bits, lists));
    let mut shapes = vec![NO_CHANGE.to_vec(), JOIN[2].to_vec()];
    shapes.extend([shape(0xff, Lists::Empty), shape(0xff, Lists::Few), shape(0xff, Lists::Full)]);
    shapes.extend([shape(0x01, Lists::Any), shape(0x02, Lists::Any), shape(0xfc, Lists::Empty)]);
    assert!(shapes.iter().any(|shape| shape.len() == MOST));
    shapes
}

fn substitutions(shape: &[u8], queue: &mut Queue) -> Done {
    for at in 0..shape.len() {
        let mut changed = shape.to_vec();
        for byte in 0..=255 {
            changed[at] = byte;
            text(queue, &changed)?;
        }
    }
    Ok(())
}

fn lengths(shape: &[u8], queue: &mut Queue) -> Done {
    for filler in [b"/", b"0", b"A"] {
        let mut long = shape.to_vec();
        long.resize(900, filler[0]);
        for length in 0..=long.len() {
            text(queue, &long[..length])?;
        }
    }
    Ok(())
}

/// Every byte at every place of the head, alone and before a fault; every choice of named sections, right and with one
/// section too few or too many.
fn heads(random: &mut Random, queue: &mut Queue) -> Done {
    for at in 0..22 {
        for byte in 0..=255 {
            let mut changed = NO_CHANGE.to_vec();
            changed[at] = byte;
            text(queue, &changed)?;
            text(queue, &changed[..at + 1])?;
        }
    }
    for bits in 0..256 {
        let one = uplink::text(&uplink::command_of(random, bits, Lists::Few));
        text(queue, &one)?;
        for other in 0..8 {
            let mut changed = one.clone();
            let number = b'2' + other as u8;
            changed[13 + other] = if changed[13 + other] == b'0' { number } else { b'0' };
            text(queue, &changed)?;
        }
    }
    Ok(())
}

/// A command that names one section, its contents, and where its numbers stand: (place, bytes).
type Row = (u32, &'static [u8], &'static [(usize, u32)]);

const ROWS: [Row; 8] = [
    (0x01, b"0000/", &[(0, 2), (2, 2)]),
    (0x02, b"01ABCD01EFGH01JKLM01NOPQ0/", &[(0, 2), (6, 2), (12, 2), (18, 2), (24, 1)]),
    (0x04, b"071/", &[(0, 2), (2, 1), (3, 1)]),
    (0x08, b"1060902005120021/", &[(0, 1), (1, 2), (3, 3), (6, 2), (8, 3), (11, 3), (14, 1), (15, 1), (16, 1)]),
    (0x10, b"1/", &[(0, 1), (1, 1)]),
    (0x20, b"104020021/", &[(0, 1), (1, 3), (4, 3), (7, 1), (8, 1), (9, 1)]),
    (0x40, b"1/", &[(0, 1), (1, 1)]),
    (0x80, b"2301/", &[(0, 2), (2, 2)]),
];

fn numbers(random: &mut Random, queue: &mut Queue) -> Done {
    for (bits, contents, fields) in ROWS {
        let head = uplink::text(&uplink::command_of(random, bits, Lists::Empty))[..22].to_vec();
        let whole = [&head[..], contents].concat();
        for &(place, bytes) in fields {
            let at = 22 + place;
            for number in 0..10usize.pow(bytes) {
                let mut changed = whole.clone();
                let spelt = format!("{number:0width$}", width = bytes as usize);
                changed[at..at + spelt.len()].copy_from_slice(spelt.as_bytes());
                text(queue, &changed)?;
                let wrong = random.below(spelt.len());
                changed[at + wrong] = random.of(b"/: A\0\xb0");
                text(queue, &changed)?;
            }
        }
    }
    Ok(())
}

fn box_text(edges: &str) -> Vec<u8> {
    format!("AWR049999999020000000/01{edges}00/").into_bytes()
}

fn edges(random: &mut Random, queue: &mut Queue) -> Done {
    for letter in ["N", "S", "E", "W", "n"] {
        for degrees in 0..100 {
            let other = random.of(&["90S", "00N", "45N", "90N", "45S"]);
            text(queue, &box_text(&format!("{degrees:02}{letter}{other}001W001E")))?;
            text(queue, &box_text(&format!("{other}{degrees:02}{letter}001W001E")))?;
        }
        for degrees in 0..1000 {
            let other = random.of(&["180W", "180E", "000E", "090E", "090W"]);
            text(queue, &box_text(&format!("45N45S{degrees:03}{letter}{other}")))?;
            text(queue, &box_text(&format!("45N45S{other}{degrees:03}{letter}")))?;
        }
    }
    Ok(())
}

fn boxes(_: &mut Random, queue: &mut Queue) -> Done {
    let spelt = |degrees: i32, width: usize, letters: [char; 2]| {
        let letter = letters[usize::from(degrees < 0)];
        format!("{:0width$}{letter}", degrees.abs())
    };
    for north in -90..=90 {
        for south in -90..=90 {
            let [north, south] = [north, south].map(|degrees| spelt(degrees, 2, ['N', 'S']));
            text(queue, &box_text(&format!("{north}{south}180W180E")))?;
        }
    }
    for west in -180..=180 {
        for east in -180..=180 {
            let [west, east] = [west, east].map(|degrees| spelt(degrees, 3, ['E', 'W']));
            text(queue, &box_text(&format!("00N00N{west}{east}")))?;
        }
    }
    Ok(())
}
