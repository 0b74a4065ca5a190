//! Families of gusts: every height of every row, limits, gusts at both ends of their range, quotients that rounding down and
//! cutting off tell apart.

use crate::queue;
use crate::run::{Done, Run};
use desk_compare::cases::gust::Case;
use desk_compare::cases::Case as _;
use desk_compare::random::Random;
use desk_compare::second::gust::{constants, formula, gust, parameter, Constants, Felt, PRINTED};
use desk_compare::second::Refusal;

type Queue = queue::Queue<Case>;

const ROWS: u32 = PRINTED.len() as u32;

/// The only row whose parameter goes below 0.
const KING_AIR: u32 = 34;

const REFUSED: Result<i32, Refusal> = Err(Refusal { code: 5, place: 0 });

/// Row, height, mass, acceleration, speed, and the answer that is plain from document 02, §10.
const KNOWN: [([i32; 5], Result<i32, Refusal>); 8] = [
    ([4, 10_000, 54_321, 1303, 101], Ok(396)),
    ([34, 0, 10_000, 1, 500], REFUSED),
    ([34, 0, 10_000, 0, 500], Ok(0)),
    ([0, 0, 120_000, 1000, 300], Ok(140)),
    ([36, 0, 120_000, 1000, 300], REFUSED),
    ([0, -1001, 120_000, 1000, 300], REFUSED),
    ([0, 0, 0, 0, 1], REFUSED),
    ([0, 0, 120_000, 0, 0], REFUSED),
];

pub fn families(run: &mut Run) {
    run.family("gust-known", "gusts that are plain from document 02, §10, both programs", |_, queue| {
        KNOWN.into_iter().try_for_each(|(numbers, want)| known(queue, numbers, want))
    });
    run.family("gust-limits", "every row, each number at, inside and outside its limits", |_, queue| limits(queue));
    run.family(
        "gust-heights",
        "every height of every row, mostly where a thousandth more of the mean parameter gives another gust",
        |random, queue| {
            (0..ROWS).try_for_each(|row| (-1000..=50_000).try_for_each(|height| queue.case(level(random, row, height))))
        },
    );
    run.family("gust-masses", "a mass in every 1000 kg of every row", |random, queue| {
        (0..ROWS).try_for_each(|row| {
            (1..=500).try_for_each(|step| {
                let mass = 1000 * step - random.below(1000) as u32;
                queue.case(felt(random, row, |felt| felt.mass = mass))
            })
        })
    });
    let turns = run.turns(300_000);
    run.family("gust-ends", "the accelerations on both sides of a gust of 0, 1, 799 and 800", |random, queue| {
        (0..turns).try_for_each(|_| ends(random, queue))
    });
    let turns = run.turns(250_000);
    run.family("gust-below", "parameters below 0, gusts round -1", |random, queue| {
        (0..turns).try_for_each(|_| below(random, queue))
    });
    let turns = run.turns(300_000);
    run.family("gust-rounding", "gusts that differ where a quotient is cut off or rounded up", |random, queue| {
        (0..turns).try_for_each(|_| rounding(random, queue))
    });
    let turns = run.turns(1_200_000);
    run.family("gust-random", "random numbers within their ranges", |random, queue| {
        (0..turns).try_for_each(|_| queue.case(any(random)))
    });
    let turns = run.turns(300_000);
    run.family("gust-refused", "random numbers, one or two outside their ranges", |random, queue| {
        (0..turns).try_for_each(|_| refused(random, queue))
    });
}

fn known(queue: &mut Queue, [row, height, mass, acceleration, speed]: [i32; 5], want: Result<i32, Refusal>) -> Done {
    let [row, mass, acceleration, speed] = [row, mass, acceleration, speed].map(|number| number as u32);
    let case = Case { row, felt: Felt { height, mass, acceleration, speed } };
    let got = gust(row, &case.felt);
    if got != want {
        return case.mismatch("a known gust", format!("document 02: {want:?}"), format!("{got:?}"));
    }
    queue.case(case)
}

fn limits(queue: &mut Queue) -> Done {
    for row in (0..ROWS + 2).chain([1 << 8, 1 << 16, u32::MAX]) {
        let usual = constants(row).map_or(100_000, |of| of.mass as u32);
        for height in [i32::MIN, -1001, -1000, -999, 0, 49_999, 50_000, 50_001, i32::MAX] {
            for mass in [0, 1, 2, usual - 1, usual, usual + 1, 499_999, 500_000, 500_001, u32::MAX] {
                for acceleration in [0, 1, 4999, 5000, 5001, u32::MAX] {
                    for speed in [0, 1, 2, 499, 500, 501, u32::MAX] {
                        queue.case(Case { row, felt: Felt { height, mass, acceleration, speed } })?;
                    }
                }
            }
        }
    }
    Ok(())
}

/// A mass: the row's own, near it, or any.
fn mass(random: &mut Random, of: &Constants) -> u32 {
    let usual = of.mass as i32;
    let mass = match random.below(10) {
        0 => usual,
        1 => usual + random.between(-2, 2),
        2..=6 => usual + random.between(-usual / 2, usual / 2),
        _ => random.between(1, 500_000),
    };
    mass.clamp(1, 500_000) as u32
}

/// The row's constants, and what an aircraft of it may feel. The acceleration is mostly one that gives a gust in its range.
fn felt(random: &mut Random, row: u32, set: impl FnOnce(&mut Felt)) -> Case {
    let of = constants(row).expect("a row");
    let mut felt = Felt {
        height: random.between(-1000, 50_000),
        mass: mass(random, of),
        acceleration: random.between(0, 5000) as u32,
        speed: random.between(1, 500) as u32,
    };
    set(&mut felt);
    if random.percent(85) {
        let most = least(of, &felt, 800).unwrap_or(5001).min(5001);
        felt.acceleration = random.below(most as usize) as u32;
    }
    Case { row, felt }
}

/// At a height: the acceleration hardly misses a gust, with a speed at which one more in the first quotient reaches it. The
/// greater the acceleration, the more such speeds there are.
fn level(random: &mut Random, row: u32, height: i32) -> Case {
    let of = constants(row).expect("a row");
    let mut case = felt(random, row, |felt| felt.height = height);
    for _ in 0..60 {
        if tells(&case, [up, down, down]) {
            break;
        }
        case.felt.speed = random.between(1, 500) as u32;
        case.felt.acceleration = 5000;
        let most = formula(of, &case.felt, [down; 3]).min(800) - random.below(3) as i64;
        if let Some(at) = least(of, &case.felt, most.max(1)) {
            case.felt.acceleration = (at - 1).min(5000) as u32;
        }
    }
    case
}

fn any(random: &mut Random) -> Case {
    let row = random.below(ROWS as usize) as u32;
    felt(random, row, |_| ())
}

type Division = fn(i64, i64) -> i64;

fn down(number: i64, by: i64) -> i64 {
    number.div_euclid(by)
}

fn up(number: i64, by: i64) -> i64 {
    -down(-number, by)
}

fn cut(number: i64, by: i64) -> i64 {
    number / by
}

/// The least acceleration above 0 that gives a gust of at least so much, where the parameter is above 0.
fn least(of: &Constants, felt: &Felt, gust: i64) -> Option<i64> {
    let each = 10 * parameter(of, felt, [down; 2]) * i64::from(felt.mass);
    (each > 0).then(|| up(gust * 1_000_000_000 * i64::from(felt.speed), each).max(1))
}

/// On both sides of an end: the speed is drawn again until an acceleration in its range is there.
fn ends(random: &mut Random, queue: &mut Queue) -> Done {
    let gust = random.of(&[1, 1, 2, 799, 800]);
    for _ in 0..50 {
        let Case { row, mut felt } = any(random);
        let Some(at) = least(constants(row).expect("a row"), &felt, gust).filter(|at| *at <= 5000) else {
            continue;
        };
        for acceleration in [at - 1, at, at + 1] {
            felt.acceleration = acceleration as u32;
            queue.case(Case { row, felt })?;
        }
        break;
    }
    Ok(())
}

/// The King Air with a parameter mostly below 0; and the most acceleration that then gives a gust above -1.
fn heavy(random: &mut Random) -> (Felt, i64) {
    let most = if random.percent(80) { 9000 } else { 500_000 };
    let mass = random.between(5500, most) as u32;
    let Case { felt, .. } = felt(random, KING_AIR, |felt| felt.mass = mass);
    let each = 10 * parameter(king_air(), &felt, [down; 2]) * i64::from(felt.mass);
    (felt, if each < 0 { 1_000_000_000 * i64::from(felt.speed) / -each } else { 0 })
}

fn king_air() -> &'static Constants {
    constants(KING_AIR).expect("a row")
}

/// No acceleration, so little that the gust is between -1 and 0, and more.
fn below(random: &mut Random, queue: &mut Queue) -> Done {
    let (mut felt, last) = heavy(random);
    for acceleration in [0, 1, last, last + 1, random.below(5001) as i64] {
        felt.acceleration = acceleration.min(5000) as u32;
        queue.case(Case { row: KING_AIR, felt })?;
    }
    Ok(())
}

/// One of the three divisions, rounded otherwise. The first quotient is above 0, so that cutting it off is rounding it down;
/// the third is below 0 for the King Air alone.
const OTHERWISE: [(usize, Division); 6] = [(0, up), (1, up), (1, cut), (1, cut), (2, up), (2, cut)];

/// Whether other divisions give another answer.
fn tells(case: &Case, others: [Division; 3]) -> bool {
    let of = constants(case.row).expect("a row");
    let answer = |divisions| formula(of, &case.felt, divisions).clamp(-1, 800);
    answer([down; 3]) != answer(others)
}

/// A case that answers otherwise where one of the divisions is another.
fn rounding(random: &mut Random, queue: &mut Queue) -> Done {
    let (which, division) = random.of(&OTHERWISE);
    let mut others: [Division; 3] = [down; 3];
    others[which] = division;
    for _ in 0..400 {
        let any = any(random);
        let case = if random.percent(20) { slight(random) } else { near(random, any) };
        if tells(&case, others) {
            return queue.case(case);
        }
    }
    Ok(())
}

/// A gust between -1 and 0.
fn slight(random: &mut Random) -> Case {
    let (felt, last) = heavy(random);
    Case { row: KING_AIR, felt: Felt { acceleration: random.below(last.min(5000) as usize + 1) as u32, ..felt } }
}

/// With an acceleration at which a gust is hardly reached, or hardly not.
fn near(random: &mut Random, Case { row, mut felt }: Case) -> Case {
    if let Some(at) = least(constants(row).expect("a row"), &felt, random.between(1, 800).into()) {
        felt.acceleration = (at - random.below(2) as i64).min(5000) as u32;
    }
    Case { row, felt }
}

fn refused(random: &mut Random, queue: &mut Queue) -> Done {
    let Case { mut row, mut felt } = any(random);
    for _ in 0..1 + random.below(2) {
        let beyond = random.next() as u32 >> random.below(32);
        match random.below(5) {
            0 => row = ROWS.saturating_add(beyond),
            1 if random.percent(50) => felt.height = (-1001_i32).saturating_sub((beyond / 2) as i32),
            1 => felt.height = 50_001_i32.saturating_add((beyond / 2) as i32),
            2 => felt.mass = if random.percent(30) { 0 } else { 500_001_u32.saturating_add(beyond) },
            3 => felt.acceleration = 5001_u32.saturating_add(beyond),
            _ => felt.speed = if random.percent(30) { 0 } else { 501_u32.saturating_add(beyond) },
        }
    }
    queue.case(Case { row, felt })
}
