//! Families of tracks: figures missing at every place, sums beyond the pole and over the date line in both directions, times
//! past the month's end.

use crate::queue;
use crate::reports::damage;
use crate::run::{Done, Run};
use desk_compare::cases::track::Case;
use desk_compare::cases::Case as _;
use desk_compare::figures::REPORT;
use desk_compare::make;
use desk_compare::random::Random;
use desk_compare::second::record::*;
use desk_compare::second::track::track;

type Queue = queue::Queue<Case>;

/// What one figure takes from the first observation on.
type Steps = Vec<Option<i32>>;

/// The fields of the three figures that are added up, in the first observation and in a later one.
const FIGURES: [[Field; 2]; 3] = [[LATITUDE, CHANGE], [LONGITUDE, CHANGE], [TIME, SINCE]];

/// Which figure, its steps, and the figure in each point.
type Known = (usize, &'static [i32], &'static [Option<i32>]);

/// What is plain from document 02, §14.
const KNOWN: [Known; 11] = [
    (0, &[5000, 399, 1, -800], &[Some(5000), Some(5399), Some(5400), Some(4600)]),
    (0, &[5400, 1, -1, -800], &[Some(5400), None, None, None]),
    (0, &[-5400, 0, -1, 1], &[Some(-5400), Some(-5400), None, None]),
    (0, &[-5400, -800, 799, 1], &[Some(-5400), None, None, None]),
    (1, &[10_000, 799, 1, 1], &[Some(10_000), Some(10_799), Some(10_800), Some(-10_799)]),
    (1, &[-10_000, -800, -1], &[Some(-10_000), Some(-10_800), Some(10_799)]),
    (1, &[10_800, 0, 799, -800], &[Some(10_800), Some(10_800), Some(-10_001), Some(10_799)]),
    (1, &[-10_800, 0, -800, 799], &[Some(-10_800), Some(-10_800), Some(10_000), Some(10_799)]),
    (1, &[10_790, 20, -10], &[Some(10_790), Some(-10_790), Some(-10_800)]),
    (2, &[2_678_399, 1, 31_999], &[Some(2_678_399), Some(2_678_400), Some(2_710_399)]),
    (2, &[0, 0, 31_999], &[Some(0), Some(0), Some(31_999)]),
];

pub fn families(run: &mut Run) {
    run.family("track-known", "tracks that are plain from document 02, §14, both programs", |random, queue| {
        queue.case(Case(REPORT.to_vec()))?;
        KNOWN.into_iter().try_for_each(|(figure, steps, want)| known(random, queue, figure, steps, want))
    });
    run.family(
        "track-missing",
        "every choice of the observations that lack a figure, for each figure and each number of observations",
        |random, queue| {
            (0..40).try_for_each(|_| {
                (0..3).try_for_each(|figure| (0..256).try_for_each(|lacks| missing(random, queue, figure, lacks)))
            })
        },
    );
    run.family(
        "track-edges",
        "every first figure near an edge with every change near one and every second change near one",
        |random, queue| (0..3).try_for_each(|figure| edges(random, queue, figure)),
    );
    let turns = run.turns(60_000);
    for (name, says, figure) in [
        ("track-pole", "latitudes along both edges, over them and back", 0),
        ("track-date-line", "longitudes along the date line, over it in both directions", 1),
        ("track-month", "times along the month's end and past it", 2),
    ] {
        run.family(name, says, |random, queue| (0..turns).try_for_each(|_| along(random, queue, figure)));
    }
    let turns = run.turns(100_000);
    run.family("track-random", "random valid reports", |random, queue| {
        (0..turns).try_for_each(|_| {
            let report = make::record(random);
            queue.case(Case(make::text(&report).to_vec()))
        })
    });
    run.family("track-length", "every truncation of three reports, and up to 30 bytes more", |random, queue| {
        (0..3).try_for_each(|_| {
            let mut text = make::text(&make::record(random)).to_vec();
            text.extend(*b"/K0 AR\r\n/K0 AR\r\n/K0 AR\r\n/K0 AR");
            (0..=text.len()).try_for_each(|length| queue.case(Case(text[..length].to_vec())))
        })
    });
    let turns = run.turns(100_000);
    run.family("track-damaged", "random reports, one to three damages each", |random, queue| {
        (0..turns).try_for_each(|_| {
            let mut text = make::text(&make::record(random)).to_vec();
            (0..1 + random.below(3)).for_each(|_| damage(random, &mut text));
            queue.case(Case(text))
        })
    });
}

/// A report of which a figure takes these steps; so many in a hundred of all others are missing.
fn report(random: &mut Random, figure: usize, steps: &Steps, others: usize) -> Vec<u8> {
    let mut report = make::record_of(random, steps.len() - 1, others);
    set(&mut report.first, figure, steps[0]);
    for (later, step) in report.later.iter_mut().flatten().zip(&steps[1..]) {
        set(later, figure, *step);
    }
    make::text(&report).to_vec()
}

fn set(of: &mut Observation, figure: usize, to: Option<i32>) {
    *[&mut of.latitude, &mut of.longitude, &mut of.time][figure] = to;
}

fn known(random: &mut Random, queue: &mut Queue, figure: usize, steps: &[i32], want: &[Option<i32>]) -> Done {
    let case = Case(report(random, figure, &steps.iter().copied().map(Some).collect(), 20));
    let got = track(&case.0).expect("an accepted report");
    let points = got.points[..got.count].iter();
    let figures: Steps = points.map(|point| [point.latitude, point.longitude, point.seconds][figure]).collect();
    if figures != want {
        return case.mismatch("a known track", format!("document 02: {want:?}"), format!("{figures:?}"));
    }
    queue.case(case)
}

/// Where a bit of eight is 1 the observation lacks the figure; reports of each number of observations in turn.
fn missing(random: &mut Random, queue: &mut Queue, figure: usize, lacks: usize) -> Done {
    let [first, change] = FIGURES[figure];
    let step = |random: &mut Random, index: usize| {
        let field = if index == 0 { &first } else { &change };
        let small = if random.percent(70) { 8 } else { 1 };
        (lacks >> index & 1 == 0).then(|| make::allowed_figure(random, field) / small)
    };
    for present in 1..=8 {
        let steps = (0..present).map(|index| step(random, index)).collect();
        let others = random.of(&[0, 0, 20]);
        queue.case(Case(report(random, figure, &steps, others)))?;
    }
    Ok(())
}

/// Near both ends of a field, and near 0.
fn near(field: &Field) -> Vec<i32> {
    let all = [field.low, 0, field.high].map(|at| (at - 2..=at + 2).collect::<Vec<i32>>()).concat();
    all.into_iter().filter(|figure| field.holds(Some(*figure))).collect()
}

fn edges(random: &mut Random, queue: &mut Queue, figure: usize) -> Done {
    let [first, change] = FIGURES[figure];
    for start in near(&first) {
        for one in near(&change) {
            for other in near(&change) {
                let steps = [start, one, other].map(Some).to_vec();
                queue.case(Case(report(random, figure, &steps, 0)))?;
            }
        }
    }
    Ok(())
}

/// Changes of which half lead to an edge, or one or two to the side of it, where a change reaches so far.
fn along(random: &mut Random, queue: &mut Queue, figure: usize) -> Done {
    let [first, change] = FIGURES[figure];
    let ends = [first.low, first.high];
    let mut at = random.of(&ends) + random.between(-900, 900);
    at = at.clamp(first.low, first.high);
    let mut steps = vec![Some(at)];
    for _ in 0..random.below(8) {
        let to = random.of(&ends) + random.between(-2, 2) - at;
        let over = if figure == 1 { random.of(&[-21_600, 0, 21_600]) } else { 0 };
        let step = match random.below(4) {
            0 | 1 if change.holds(Some(to + over)) => to + over,
            2 => random.between(-3, 3).clamp(change.low, change.high),
            _ => make::allowed_figure(random, &change),
        };
        at += step;
        if figure == 1 {
            at -= 21_600 * at.signum() * i32::from(at.abs() > 10_800);
        }
        steps.push((!random.percent(2)).then_some(step));
    }
    let others = random.of(&[0, 0, 10]);
    queue.case(Case(report(random, figure, &steps, others)))
}
