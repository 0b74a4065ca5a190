//! Families of status sheets: texts are checked, read and written back; records are written and read back.

use crate::queue;
use crate::run::{Done, Run};
use desk_compare::cases::sheet::Case;
use desk_compare::figures::sheet;
use desk_compare::make;
use desk_compare::meet;
use desk_compare::ours;
use desk_compare::random::Random;
use desk_compare::second::sheet::BYTES;

type Queue = queue::Queue<Case>;

/// Where the numbers stand: place and width.
const NUMBERS: [(usize, usize); 16] = [
    (25, 2),
    (28, 2),
    (33, 3),
    (39, 2),
    (42, 2),
    (48, 4),
    (55, 4),
    (60, 2),
    (69, 1),
    (73, 1),
    (77, 1),
    (80, 1),
    (86, 5),
    (92, 6),
    (83 + 32 * 9 + 16, 5),
    (83 + 32 * 9 + 22, 6),
];

pub fn families(run: &mut Run) {
    run.family("sheet-printed", "the sheet that source document 001 prints", |_, queue| {
        queue.case(Case::Text(sheet()))
    });
    run.family(
        "sheet-substitution",
        "every byte of the printed sheet and of another made every other",
        |random, queue| [sheet(), any(random)].iter().try_for_each(|text| substitutions(text, queue)),
    );
    run.family(
        "sheet-length",
        "every truncation, and extensions to 1000 bytes, of the printed sheet and of others",
        |random, queue| [sheet(), any(random), any(random)].iter().try_for_each(|text| lengths(text, queue)),
    );
    run.family("sheet-spellings", "every number of up to three bytes, and numbers of every form", |random, queue| {
        spellings(random, queue)
    });
    let turns = run.turns(60_000);
    run.family("sheet-valid", "random sheets", |random, queue| {
        (0..turns).try_for_each(|_| queue.case(Case::Text(any(random))))
    });
    let turns = run.turns(150_000);
    run.family("sheet-damaged", "random sheets, one to five damages each", |random, queue| {
        for _ in 0..turns {
            let mut text = any(random);
            for _ in 0..1 + random.below(5) {
                damage(random, &mut text);
            }
            queue.case(Case::Text(text))?;
        }
        Ok(())
    });
    let turns = run.turns(60_000);
    run.family("sheet-records", "random records, most of them allowed, into rooms round 913 bytes", |random, queue| {
        for _ in 0..turns {
            let mut record = Box::new(meet::sheet(&make::sheet::record(random)));
            for _ in 0..random.below(3) {
                disturb(random, &mut record);
            }
            let room = random.of(&[BYTES, BYTES, BYTES, BYTES - 1, BYTES + 1, 0, 1000]);
            queue.case(Case::Record { record, room })?;
        }
        Ok(())
    });
    run.family("sheet-rooms", "every room up to 930 bytes", |random, queue| {
        (0..930).try_for_each(|room| {
            let record = Box::new(meet::sheet(&make::sheet::record(random)));
            queue.case(Case::Record { record, room })
        })
    });
    let turns = run.turns(20_000);
    run.family("sheet-noise", "any bytes of any length up to 1000", |random, queue| {
        for _ in 0..turns {
            let text = (0..random.below(1001)).map(|_| make::odd_byte(random)).collect();
            queue.case(Case::Text(text))?;
        }
        Ok(())
    });
}

fn any(random: &mut Random) -> Vec<u8> {
    make::sheet::text(&make::sheet::record(random))
}

fn substitutions(text: &[u8], queue: &mut Queue) -> Done {
    for at in 0..BYTES {
        let mut changed = text.to_vec();
        for byte in 0..=255 {
            changed[at] = byte;
            queue.case(Case::Text(changed.clone()))?;
        }
    }
    Ok(())
}

fn lengths(text: &[u8], queue: &mut Queue) -> Done {
    (0..BYTES).try_for_each(|length| queue.case(Case::Text(text[..length].to_vec())))?;
    (BYTES + 1..=1000).try_for_each(|length| {
        let longer = text.iter().copied().cycle().take(length).collect();
        queue.case(Case::Text(longer))
    })
}

/// All fields of a number's bytes up to three wide; of wider ones those that random digits, spaces and signs make.
fn spellings(random: &mut Random, queue: &mut Queue) -> Done {
    const BYTES_OF: &[u8] = b" -0159+/:A";
    for (at, width) in NUMBERS {
        let all = BYTES_OF.len().pow(width.min(3) as u32);
        for index in 0..all * if width > 3 { 4 } else { 1 } {
            let mut text = sheet();
            for (offset, byte) in text[at..at + width].iter_mut().enumerate() {
                *byte = match width {
                    1..=3 => BYTES_OF[index / BYTES_OF.len().pow(offset as u32) % BYTES_OF.len()],
                    _ => random.of(BYTES_OF),
                };
            }
            queue.case(Case::Text(text))?;
        }
        for _ in 0..2000 {
            let number = random.between(-12_000, 12_000) / random.of(&[1, 1, 10, 100, 1000]);
            let spelt = match random.below(4) {
                0 => format!("{number:0width$}"),
                1 => format!("{number:<width$}"),
                _ => format!("{number:>width$}"),
            };
            let mut text = sheet();
            text[at..at + width].copy_from_slice(&spelt.as_bytes()[spelt.len() - width..]);
            queue.case(Case::Text(text))?;
        }
    }
    Ok(())
}

fn damage(random: &mut Random, text: &mut Vec<u8>) {
    if text.is_empty() {
        return;
    }
    let at = random.below(text.len());
    match random.below(12) {
        0 => text.truncate(at),
        1 => text.insert(at, make::odd_byte(random)),
        2 => {
            text.remove(at);
        }
        3 => {
            let other = random.below(text.len());
            text.swap(at, other);
        }
        _ => text[at] = if random.percent(50) { random.of(b" -0123456789/ABDRS\r\n") } else { make::odd_byte(random) },
    }
}

/// A member with any number or byte in it.
fn disturb(random: &mut Random, record: &mut ours::Sheet) {
    let number = random
        .of(&[-32768, -10_801, -10_800, -5401, -1, 0, 1, 2, 3, 10, 99, 100, 1000, 5401, 9999, 10_000, 10_801, 32767])
        as i16;
    let one = random.below(10);
    let corner = &mut record.boxes[one];
    match random.below(24) {
        0 => record.ascent = number,
        1 => record.ascent_interval1 = number,
        2 => record.ascent_interval2 = number,
        3 => record.level = number,
        4 => record.level_interval = number,
        5 => record.descent = number,
        6 => record.descent_interval1 = number,
        7 => record.descent_interval2 = number,
        8 => record.trigger1 = number,
        9 => record.trigger2 = number,
        10 => record.observations = number,
        11 => record.smoothing = number,
        12 => record.profile_constant = number,
        13 => record.cruise_constant = number,
        14 => record.gust_constant = number,
        15 => record.instant_constant = number,
        16 => corner.latitude1 = number,
        17 => corner.longitude1 = number,
        18 => corner.latitude2 = number,
        19 => corner.longitude2 = number,
        20 => corner.status = number,
        21 => record.designator[random.below(6)] = make::odd_byte(random),
        22 => record.airports[random.below(50)].icao[random.below(4)] = make::odd_byte(random),
        _ => record.airports[random.below(50)].status = random.byte(),
    }
}
