//! Families of records: written by both programs, compared byte for byte in and round the room, and read back.

use crate::queue;
use crate::run::{Done, Run};
use desk_compare::cases::report::Case;
use desk_compare::make;
use desk_compare::make::forms::observation;
use desk_compare::meet;
use desk_compare::ours::{Figure, Observation, Report};
use desk_compare::random::Random;
use desk_compare::second::record::{Field, FIRST_FIELDS, LATER_FIELDS};

type Queue = queue::Queue<Case>;

/// No room, too little, just enough, and more.
pub const ROOMS: [usize; 6] = [0, 1, 219, 220, 221, 230];

pub fn families(run: &mut Run) {
    let turns = run.turns(60_000);
    run.family("record-allowed", "random allowed records x rooms 0 to 230", |random, queue| {
        for _ in 0..turns {
            let allowed = meet::record(&make::record(random));
            for room in ROOMS {
                write(queue, &allowed, room)?;
            }
        }
        Ok(())
    });
    run.family("record-edges", "every figure of a record at and past its edges x rooms", |random, queue| {
        let full = meet::record(&make::record_of(random, 7, 0));
        for index in 0..8 {
            let fields = if index == 0 { FIRST_FIELDS } else { LATER_FIELDS };
            for (place, field) in fields.iter().enumerate() {
                for figure in edges(field) {
                    let mut changed = full;
                    *make::figures(observation(&mut changed, index))[place] = figure;
                    write(queue, &changed, 220)?;
                    write(queue, &changed, 0)?;
                }
            }
        }
        Ok(())
    });
    run.family("record-bytes", "every byte as each name, kind and quality byte x rooms", |random, queue| {
        let full = meet::record(&make::record_of(random, 7, 0));
        for byte in 0..=255 {
            for place in 0..14 + 16 {
                let mut changed = full;
                *named_byte(&mut changed, place) = byte;
                write(queue, &changed, 230)?;
                write(queue, &changed, 219)?;
            }
        }
        Ok(())
    });
    let turns = run.turns(100_000);
    run.family("record-damaged", "random records, one to four members not allowed, x rooms", |random, queue| {
        for _ in 0..turns {
            let mut damaged = meet::record(&make::record(random));
            for _ in 0..1 + random.below(4) {
                damage(random, &mut damaged);
            }
            for room in ROOMS {
                write(queue, &damaged, room)?;
            }
        }
        Ok(())
    });
}

pub fn write(queue: &mut Queue, record: &Report, room: usize) -> Done {
    queue.case(Case::Record { record: Box::new(*record), room })
}

fn edges(field: &Field) -> [Figure; 9] {
    let numbers =
        [field.low - 1, field.low, field.low + 1, 0, field.high - 1, field.high, field.high + 1, i32::MIN, i32::MAX];
    numbers.map(|number| Figure { number, given: 1 })
}

/// The bytes of a record that are letters: 14 of names, then a kind and a quality of each observation.
fn named_byte(report: &mut Report, place: usize) -> &mut u8 {
    match place {
        0..=3 => &mut report.departure[place],
        4..=7 => &mut report.arrival[place - 4],
        8..=13 => &mut report.designator[place - 8],
        _ => {
            let of = observation(report, (place - 14) / 2);
            if place.is_multiple_of(2) {
                &mut of.kind
            } else {
                &mut of.quality
            }
        }
    }
}

/// A figure that was given made missing, and a missing one given.
fn turn(figure: &mut Figure) {
    *figure = if figure.given == 0 { Figure { number: 0, given: 1 } } else { Figure::default() };
}

/// Makes one member something else, in its one form; most of the time it is then not allowed.
pub fn damage(random: &mut Random, report: &mut Report) {
    let index = random.below(8);
    let fields = if index == 0 { FIRST_FIELDS } else { LATER_FIELDS };
    let place = random.below(9);
    match random.below(12) {
        0 => *named_byte(report, random.below(14)) = make::odd_byte(random),
        1 => observation(report, index).kind = make::odd_byte(random),
        2 => observation(report, index).quality = make::odd_byte(random),
        3 | 4 => turn(&mut observation(report, index).wind_direction),
        5 | 6 => turn(&mut observation(report, index).wind_speed),
        7 => {
            let later = &mut report.later[random.below(7)];
            *later = if later.present == 0 { report.first } else { Observation::default() };
        }
        8 => report.later.swap(random.below(7), random.below(7)),
        9 => {
            let number = make::any_figure(random);
            *make::figures(observation(report, index))[place] = Figure { number, given: 1 };
        }
        _ => {
            let figure = random.of(&edges(&fields[place]));
            *make::figures(observation(report, index))[place] = figure;
        }
    }
}
