//! Tracks instead of steps: document 02, §14.

use super::code;
use crate::figures::REPORT;
use crate::make::{record, record_of, text};
use crate::random::Random;
use crate::second::record::{Observation, Report, BYTES};
use crate::second::report::check;
use crate::second::track::{track, Point, Track};

/// A report of these steps: each a latitude, a longitude and a time, absolute first and then changes.
fn report(steps: &[[Option<i32>; 3]]) -> [u8; BYTES] {
    let mut random = Random::new(1, "steps");
    let mut record = record_of(&mut random, steps.len() - 1, 30);
    let set = |of: &mut Observation, step: [Option<i32>; 3]| [of.latitude, of.longitude, of.time] = step;
    set(&mut record.first, steps[0]);
    record.later.iter_mut().flatten().zip(&steps[1..]).for_each(|(later, step)| set(later, *step));
    text(&record)
}

fn points(steps: &[[Option<i32>; 3]]) -> Vec<[Option<i32>; 3]> {
    let Track { points, count } = track(&report(steps)).unwrap();
    assert_eq!(count, steps.len());
    assert!(points[count..].iter().all(|point| *point == Point::default()));
    points[..count].iter().map(|point| [point.latitude, point.longitude, point.seconds]).collect()
}

/// One figure's sums, by which of the three it is; the others are given throughout.
fn sums(figure: usize, steps: &[Option<i32>]) -> Vec<Option<i32>> {
    let steps: Vec<_> = steps
        .iter()
        .map(|step| {
            let mut all = [Some(1); 3];
            all[figure] = *step;
            all
        })
        .collect();
    points(&steps).iter().map(|point| point[figure]).collect()
}

#[test]
fn printed_report() {
    let Track { points, count } = track(REPORT).unwrap();
    assert_eq!(count, 1);
    assert_eq!(points[0], Point { latitude: Some(0), longitude: Some(0), seconds: Some(0) });
    assert_eq!(points[1..], [Point::default(); 7]);
}

#[test]
fn latitudes() {
    let given = |sums: &[i32]| sums.iter().copied().map(Some).collect::<Vec<_>>();
    assert_eq!(sums(0, &given(&[5000, 399, 1, -800])), given(&[5000, 5399, 5400, 4600]));
    assert_eq!(sums(0, &given(&[5400, 1, -1, -800])), [Some(5400), None, None, None], "it does not come back");
    assert_eq!(sums(0, &given(&[-5400, 0, -1, 799, 0])), [Some(-5400), Some(-5400), None, None, None]);
    assert_eq!(sums(0, &[Some(0), None, Some(5), Some(6)]), [Some(0), None, None, None]);
    assert_eq!(sums(0, &[None, Some(1), Some(2)]), [None; 3], "a change alone is no place");
}

#[test]
fn longitudes() {
    let given = |sums: &[i32]| sums.iter().copied().map(Some).collect::<Vec<_>>();
    assert_eq!(sums(1, &given(&[10_000, 799, 1, 1, 0])), given(&[10_000, 10_799, 10_800, -10_799, -10_799]));
    assert_eq!(sums(1, &given(&[-10_000, -800, -1, 2])), given(&[-10_000, -10_800, 10_799, -10_799]));
    assert_eq!(sums(1, &given(&[10_800, 0, 799])), given(&[10_800, 10_800, -10_001]), "180 degrees stays");
    assert_eq!(sums(1, &given(&[-10_800, 0, -800])), given(&[-10_800, -10_800, 10_000]));
    assert_eq!(
        sums(1, &given(&[10_790, 20, -10, 0])),
        given(&[10_790, -10_790, -10_800, -10_800]),
        "from point to point"
    );
    assert_eq!(sums(1, &[Some(10_800), None, Some(1)]), [Some(10_800), None, None]);
}

#[test]
fn times() {
    let given = |sums: &[i32]| sums.iter().copied().map(Some).collect::<Vec<_>>();
    assert_eq!(sums(2, &given(&[2_678_399, 1, 31_999])), given(&[2_678_399, 2_678_400, 2_710_399]));
    let mut most = vec![31_999; 8];
    most[0] = 2_678_399;
    assert_eq!(sums(2, &given(&most)).last(), Some(&Some(2_902_392)));
    assert_eq!(sums(2, &[Some(0), Some(0), None, Some(7)]), [Some(0), Some(0), None, None]);
}

/// Each figure is lost by itself.
#[test]
fn apart() {
    let steps = [[Some(5400), None, Some(9)], [Some(1), Some(1), Some(1)], [Some(0), Some(0), None]];
    assert_eq!(points(&steps), [[Some(5400), None, Some(9)], [None, None, Some(10)], [None; 3]]);
    assert_eq!(points(&[[None; 3], [None; 3]]), [[None; 3]; 2], "a point of which nothing is known");
}

#[test]
fn refusals() {
    let mut text = *REPORT;
    text[24] = b'X';
    for (text, want) in [(&text[..], code(4, 24)), (&REPORT[..219], code(1, 0)), (b"", code(1, 0))] {
        assert_eq!(track(text), Err(want));
        assert_eq!(check(text), Err(want));
    }
}

/// The sentences again, each point from the first observation on, with no sum kept.
fn by_the_sentences(report: &Report, index: usize) -> Point {
    let present: Vec<&Observation> =
        std::iter::once(&report.first).chain(report.later.iter().flatten()).take(index + 1).collect();
    let up_to = |figure: fn(&Observation) -> Option<i32>| {
        (0..=index)
            .map(|last| present[..=last].iter().map(|of| figure(of)).sum::<Option<i32>>())
            .collect::<Option<Vec<i32>>>()
    };
    let latitudes = up_to(|of| of.latitude).filter(|sums| sums.iter().all(|sum| (-5400..=5400).contains(sum)));
    let longitude = up_to(|of| of.longitude).map(|sums| sums[index]);
    Point {
        latitude: latitudes.map(|sums| sums[index]),
        longitude,
        seconds: up_to(|of| of.time).map(|sums| sums[index]),
    }
}

#[test]
fn the_law() {
    let mut random = Random::new(1, "tracks");
    let mut met = [0; 3];
    for _ in 0..20_000 {
        let report = record(&mut random);
        let Track { points, count } = track(&text(&report)).unwrap();
        assert_eq!(count, 1 + report.later.iter().flatten().count());
        for (index, point) in points[..count].iter().enumerate() {
            let want = by_the_sentences(&report, index);
            assert_eq!((point.latitude, point.seconds), (want.latitude, want.seconds));
            assert_eq!(point.longitude.is_some(), want.longitude.is_some());
            if let (Some(got), Some(sum)) = (point.longitude, want.longitude) {
                assert_eq!((got - sum) % 21_600, 0);
                assert!((-10_800..=10_800).contains(&got));
                met[0] += usize::from(got != sum);
            }
            met[1] += usize::from(point.latitude.is_none());
            met[2] += usize::from(point.seconds.is_some_and(|seconds| seconds > 2_678_399));
        }
        assert!(points[count..].iter().all(|point| *point == Point::default()));
    }
    assert!(met.iter().all(|&met| met > 500), "{met:?}");
}
