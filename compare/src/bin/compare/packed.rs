//! Families of packed fields.

use crate::run::{Done, Run};
use desk_compare::cases::report::Case;
use desk_compare::cases::Case as _;
use desk_compare::figures::{Printed, PACKED};
use desk_compare::make;
use desk_compare::ours::Figure;
use desk_compare::second::{packed, Refusal};

pub fn families(run: &mut Run) {
    run.family("printed-figures", "document 01's printed fields, both programs", |_, queue| {
        for (field, figure) in PACKED {
            printed(field, figure)?;
            queue.case(Case::PackedRead(field.to_vec()))?;
        }
        Ok(())
    });
    run.family("packed-short", "every field of 0, 1, 2 and 3 bytes", |_, queue| {
        queue.case(Case::PackedRead(Vec::new()))?;
        for width in 1..=3 {
            for number in 0..1u32 << (8 * width) {
                queue.case(Case::PackedRead(number.to_le_bytes()[..width].to_vec()))?;
            }
        }
        Ok(())
    });
    run.family("packed-four", "every field of 4 bytes of digits, space, /, NUL, a, 0x80", |_, queue| {
        let alphabet = b"0123456789ABCDEFGHIJKLMNOPQRSTUVWXYZ:,-. /\0a\x80";
        for number in 0..alphabet.len().pow(4) {
            let mut rest = number;
            let field = (0..4).map(|_| {
                let byte = alphabet[rest % alphabet.len()];
                rest /= alphabet.len();
                byte
            });
            queue.case(Case::PackedRead(field.collect()))?;
        }
        Ok(())
    });
    let turns = run.turns(5_000_000);
    run.family("packed-random", "fields of 4 and 5 bytes, and of 0 and 6, valid, near and damaged", |random, queue| {
        for _ in 0..turns {
            queue.case(Case::PackedRead(make::packed_field(random)))?;
        }
        Ok(())
    });
    run.family("packed-long", "fields of 7 to 300 bytes", |random, queue| {
        for width in 7..=300 {
            queue.case(Case::PackedRead(vec![b'/'; width]))?;
            queue.case(Case::PackedRead(make::packed_field_of(random, width)))?;
        }
        Ok(())
    });
    write_families(run);
}

/// A printed field of document 01 against the second program.
fn printed(field: &[u8], figure: Printed) -> Done {
    let want = match figure {
        Printed::Figure(number) => Ok(Some(number)),
        Printed::Missing => Ok(None),
        Printed::Code(code, place) => Err(Refusal { code, place }),
    };
    let got = packed::read(field);
    if got == want {
        return Ok(());
    }
    let case = Case::PackedRead(field.to_vec());
    case.mismatch("document 01's printed figure", format!("document 01: {want:?}"), format!("{got:?}"))
}

fn write_families(run: &mut Run) {
    run.family("packed-write-edges", "widths 0 to 7, figures at every edge, rooms 0 to 7", |_, queue| {
        for width in 0..=7 {
            for room in 0..=7 {
                for figure in edges() {
                    queue.case(Case::PackedWrite { figure, width, room })?;
                }
            }
        }
        for width in [8, 256, 257, 65_537, 1 << 32, (1 << 32) + 3, usize::MAX, usize::MAX - 2] {
            queue.case(Case::PackedWrite { figure: Figure { number: 0, given: 1 }, width, room: 5 })?;
            queue.case(Case::PackedWrite { figure: Figure::default(), width, room: 0 })?;
        }
        Ok(())
    });
    let turns = run.turns(3_000_000);
    run.family("packed-write-random", "any figures, widths 0 to 7, rooms 0 to 9", |random, queue| {
        for _ in 0..turns {
            let given = random.of(&[0, 0, 1, 1, 1, 1, 1, 2, 3, 256, 1 << 31, u32::MAX]);
            let width = if random.percent(90) { 1 + random.below(5) } else { random.below(8) };
            let number = if given == 0 && random.percent(50) {
                0
            } else if random.percent(50) {
                make::figure_of_digits(random, width.clamp(1, 5))
            } else {
                make::any_figure(random)
            };
            queue.case(Case::PackedWrite { figure: Figure { number, given }, width, room: random.below(10) })?;
        }
        Ok(())
    });
}

/// The figures round every width's two edges, round 0, and the ends of the numbers; given, and in each other form.
fn edges() -> Vec<Figure> {
    let mut numbers = vec![i32::MIN, i32::MIN + 1, i32::MAX - 1, i32::MAX, -1, 0, 1];
    for digits in 1..=6 {
        let half = make::half(digits.min(5)) as i64 * if digits == 6 { 40 } else { 1 };
        for edge in [-half - 1, -half, -half + 1, half - 2, half - 1, half] {
            numbers.push(edge.clamp(i64::from(i32::MIN), i64::from(i32::MAX)) as i32);
        }
    }
    let figure = |number| [0, 1, 2, 3, 256, 257, 1 << 31, u32::MAX].map(|given| Figure { number, given });
    numbers.into_iter().flat_map(figure).collect()
}
