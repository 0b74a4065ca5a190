//! Families of report texts: check and read are compared, and an accepted one is written back.

use crate::queue;
use crate::run::{Done, Run};
use desk_compare::cases::report::Case;
use desk_compare::figures::REPORT;
use desk_compare::make;
use desk_compare::random::Random;
use desk_compare::second::packed;
use desk_compare::second::record::*;

type Queue = queue::Queue<Case>;

type Text = [u8; BYTES];

pub fn families(run: &mut Run) {
    run.family("report-printed", "document 01's printed report", |_, queue| {
        queue.case(Case::Report(REPORT.to_vec()))?;
        Ok(())
    });
    run.family("report-substitution", "every byte of 6 reports made every other", |random, queue| {
        shapes(random).iter().try_for_each(|text| substitutions(text, queue))
    });
    run.family("report-length", "every truncation and extensions to 700 bytes of 6 reports", |random, queue| {
        shapes(random).iter().try_for_each(|text| lengths(text, queue))
    });
    run.family(
        "report-field-edges",
        "every field at, inside and outside its edges, and in other spellings",
        |random, queue| shapes(random)[1..3].iter().try_for_each(|text| field_edges(text, random, queue)),
    );
    run.family("report-absent", "every pattern of absent parts, its kinds and inner bytes changed", |random, queue| {
        (0..128).try_for_each(|pattern| absent(&shapes(random)[1], pattern, random, queue))
    });
    run.family(
        "report-wind",
        "every pairing of missing, given and wrong winds in every observation",
        |random, queue| winds(&shapes(random)[1], queue),
    );
    let turns = run.turns(150_000);
    run.family("report-valid", "random valid reports", |random, queue| {
        for _ in 0..turns {
            let report = make::record(random);
            queue.case(Case::Report(make::text(&report).to_vec()))?;
        }
        Ok(())
    });
    let turns = run.turns(400_000);
    run.family("report-damaged", "random reports, one to five damages each", |random, queue| {
        for _ in 0..turns {
            let report = make::record(random);
            let mut text = make::text(&report).to_vec();
            for _ in 0..1 + random.below(5) {
                damage(random, &mut text);
            }
            queue.case(Case::Report(text.to_vec()))?;
        }
        Ok(())
    });
    let turns = run.turns(20_000);
    run.family("report-noise", "any bytes of any length up to 440", |random, queue| {
        for _ in 0..turns {
            let length = if random.percent(50) { BYTES } else { random.below(441) };
            let text: Vec<u8> = (0..length).map(|_| make::odd_byte(random)).collect();
            queue.case(Case::Report(text.to_vec()))?;
        }
        Ok(())
    });
}

/// Six reports of different shape: the printed one, a full one, full ones with missing figures, absent tails.
fn shapes(random: &mut Random) -> [Text; 6] {
    let mut shape = |present, missing| make::text(&make::record_of(random, present, missing));
    [*REPORT, shape(7, 0), shape(7, 40), shape(4, 30), shape(1, 0), shape(7, 100)]
}

fn substitutions(text: &Text, queue: &mut Queue) -> Done {
    for at in 0..BYTES {
        let mut changed = *text;
        for byte in 0..=255 {
            changed[at] = byte;
            queue.case(Case::Report(changed.to_vec()))?;
        }
    }
    Ok(())
}

fn lengths(text: &Text, queue: &mut Queue) -> Done {
    let mut long = text.to_vec();
    long.extend_from_slice(text);
    long.resize(700, b'/');
    for length in 0..=long.len() {
        queue.case(Case::Report(long[..length].to_vec()))?;
    }
    for start in 1..BYTES {
        queue.case(Case::Report(long[start..start + BYTES].to_vec()))?;
    }
    Ok(())
}

/// Where each packed field of a report stands.
fn fields() -> Vec<(usize, Field)> {
    let mut all = Vec::new();
    let parts = LATER_AT.map(|at| (at, LATER_FIELDS));
    for (at, fields) in [(FIRST_AT, FIRST_FIELDS)].into_iter().chain(parts) {
        let mut place = at + 1;
        for field in fields {
            all.push((place, field));
            place += field.bytes;
        }
    }
    all
}

fn field_edges(text: &Text, random: &mut Random, queue: &mut Queue) -> Done {
    for (place, field) in fields() {
        let mut changed = *text;
        let half = make::half(field.bytes);
        let edges = [field.low - 1, field.low, field.low + 1, field.high - 1, field.high, field.high + 1];
        for figure in edges.into_iter().chain([-half, -1, 0, 1, half - 1]).filter(|n| (-half..half).contains(n)) {
            packed::put(Some(figure), &mut changed[place..place + field.bytes]);
            queue.case(Case::Report(changed.to_vec()))?;
        }
        for _ in 0..200 {
            let spelling = make::packed_field_of(random, field.bytes);
            changed[place..place + field.bytes].copy_from_slice(&spelling);
            queue.case(Case::Report(changed.to_vec()))?;
        }
    }
    Ok(())
}

/// A full report whose parts named in the pattern are absent; then one part's kind or inner byte is another.
fn absent(text: &Text, pattern: usize, random: &mut Random, queue: &mut Queue) -> Done {
    let mut text = *text;
    for (index, at) in LATER_AT.into_iter().enumerate() {
        if pattern >> index & 1 == 1 {
            text[at..at + LATER].fill(b'/');
        }
    }
    queue.case(Case::Report(text.to_vec()))?;
    for at in LATER_AT {
        for byte in *b"ADRWUE/Xa0 \0\xff" {
            let mut changed = text;
            changed[at] = byte;
            queue.case(Case::Report(changed.to_vec()))?;
            changed[at + 1 + random.below(LATER - 1)] = make::odd_byte(random);
            queue.case(Case::Report(changed.to_vec()))?;
        }
    }
    Ok(())
}

/// Direction and speed, each missing, given at both edges, not allowed, too long, or out of its range.
fn winds(text: &Text, queue: &mut Queue) -> Done {
    let winds: [&[u8; 2]; 10] = [b"//", b" K", b"T0", b"..", b"T1", b" J", b"K5", b"/5", b"  ", b"J."];
    for (place, _) in fields().chunks(9).map(|fields| fields[5]) {
        for direction in winds {
            for speed in winds {
                let mut changed = *text;
                changed[place..place + 2].copy_from_slice(direction);
                changed[place + 2..place + 4].copy_from_slice(speed);
                queue.case(Case::Report(changed.to_vec()))?;
            }
        }
    }
    Ok(())
}

/// One damage. Most leave the length as it is.
pub fn damage(random: &mut Random, text: &mut Vec<u8>) {
    if text.len() != BYTES {
        return;
    }
    let part = random.of(&LATER_AT);
    let other = random.of(&LATER_AT);
    match random.below(40) {
        0 => text.truncate(random.below(BYTES)),
        1 => text.push(b'/'),
        2..=4 => {
            let end = random.of(&ENDS_AT);
            text[end + random.below(2)] = odd(random, b"\r\n /");
        }
        5..=7 => text[random.below(24)] = make::odd_byte(random),
        8..=10 => swap_parts(text, part, other),
        11..=13 => text[part..part + LATER].fill(b'/'),
        14..=16 => text[part] = odd(random, b"ADRWUE/X"),
        17..=19 => text[part + random.below(LATER)] = b'/',
        20..=22 => text[random.of(&[FIRST_AT, 50, part + LATER - 1])] = odd(random, b"/09:A. "),
        23..=30 => {
            let (place, field) = random.of(&fields());
            let spelling = make::packed_field_of(random, field.bytes);
            text[place..place + field.bytes].copy_from_slice(&spelling);
        }
        31..=34 => {
            let (place, field) = random.of(&fields());
            text[place..place + field.bytes].fill(b'/');
        }
        _ => text[random.below(BYTES)] = make::odd_byte(random),
    }
}

fn odd(random: &mut Random, from: &[u8]) -> u8 {
    if random.percent(80) {
        random.of(from)
    } else {
        make::odd_byte(random)
    }
}

fn swap_parts(text: &mut [u8], one: usize, other: usize) {
    for index in 0..LATER {
        text.swap(one + index, other + index);
    }
}
