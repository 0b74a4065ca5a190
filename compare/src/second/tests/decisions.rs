//! Whether to report.

use super::code;
use super::commands::longest;
use crate::second::config::{apply, reset};
use crate::second::decide::Decision::{self, Routine, Scheme, Silent};
use crate::second::decide::{decide, Question};
use crate::second::settings::Configuration;
use crate::second::Refusal;

const HERE: Question = Question { phase: 0, latitude: 0, longitude: 0, hour: 12, airfield: b"ABCD" };

fn with(text: &str) -> Configuration {
    let mut held = reset();
    apply(&mut held, text.as_bytes()).unwrap();
    held
}

fn ask(held: &Configuration, question: Question) -> Result<Decision, Refusal> {
    decide(held, &question)
}

#[test]
fn refusals_in_order() {
    let mut wrong = reset();
    wrong.flags[0] = 9;
    assert_eq!(ask(&wrong, Question { phase: 3, airfield: b"", ..HERE }), Err(code(12, 0)));
    let cases = [
        Question { phase: 3, airfield: b"", ..HERE },
        Question { hour: 24, airfield: b"", ..HERE },
        Question { latitude: 5401, airfield: b"", ..HERE },
        Question { latitude: -5401, ..HERE },
        Question { longitude: 10_801, ..HERE },
        Question { longitude: i32::MIN, ..HERE },
    ];
    for question in cases {
        assert_eq!(ask(&reset(), question), Err(code(5, 0)), "{question:?}");
    }
    for airfield in [&b""[..], b"ABC", b"ABCDE", b"ABC/", b"abcd"] {
        for phase in 0..3 {
            assert_eq!(ask(&reset(), Question { phase, airfield, ..HERE }), Err(code(4, 0)));
        }
    }
}

#[test]
fn window() {
    let held = with("AWR049199999000000009/2301/");
    for hour in 0..24 {
        let want = if hour == 23 || hour == 0 { Silent } else { Scheme };
        assert_eq!(ask(&held, Question { hour, ..HERE }), Ok(want), "hour {hour}");
    }
    for (hours, hour, want) in [("0507", 5, Silent), ("0507", 6, Silent), ("0507", 7, Scheme), ("0505", 5, Scheme)] {
        let held = with(&format!("AWR049199999000000009/{hours}/"));
        assert_eq!(ask(&held, Question { hour, ..HERE }), Ok(want), "{hours} at {hour}");
    }
}

#[test]
fn regions() {
    let held = with("AWR049919999020000000/0110N10S010W010E0105N05N000E005E/");
    let cases = [
        ((600, 600), Scheme),
        ((-600, -600), Scheme),
        ((601, 0), Silent),
        ((0, -601), Silent),
        ((300, 0), Silent),
        ((300, 300), Silent),
        ((300, 301), Scheme),
        ((301, 0), Scheme),
    ];
    for ((latitude, longitude), want) in cases {
        assert_eq!(ask(&held, Question { latitude, longitude, ..HERE }), Ok(want), "{latitude} {longitude}");
    }
    let globe = with("AWR049919999020000000/000190N90S180W180E/");
    assert_eq!(ask(&globe, Question { latitude: 5400, longitude: 10_800, ..HERE }), Ok(Silent));
    assert_eq!(ask(&with("AWR049919999020000000/0000/"), HERE), Ok(Scheme));
}

/// Every two edges by every minute near an edge, against the request's own words: "at or east of the first edge or at or
/// west of the second" where the first is above the second, and a place on 180 degrees is inside when either spelling is.
#[test]
fn over_the_date_line() {
    let degrees: Vec<i32> = (-180..=180).step_by(10).chain([-179, -1, 1, 179]).collect();
    let near = |edge: i32| [60 * edge - 1, 60 * edge, 60 * edge + 1];
    let minutes: Vec<i32> =
        degrees.iter().flat_map(|edge| near(*edge)).filter(|at| (-10_800..=10_800).contains(at)).collect();
    let spelt = |degrees: i32| format!("{:03}{}", degrees.abs(), if degrees < 0 { 'W' } else { 'E' });
    for &first in &degrees {
        for &second in &degrees {
            let edges = [spelt(first), spelt(second)].concat();
            let [reporting, inhibiting] = [format!("0110N10S{edges}00"), format!("000110N10S{edges}")]
                .map(|lists| with(&format!("AWR049919999020000000/{lists}/")));
            let inside = |at: i32| {
                let (east_of_first, west_of_second) = (at >= 60 * first, at <= 60 * second);
                if first > second {
                    east_of_first || west_of_second
                } else {
                    east_of_first && west_of_second
                }
            };
            for &longitude in &minutes {
                let either = inside(longitude) || longitude.abs() == 10_800 && inside(-longitude);
                let question = Question { longitude, ..HERE };
                assert_eq!(ask(&reporting, question), Ok(if either { Scheme } else { Silent }), "{edges} {longitude}");
                assert_eq!(ask(&inhibiting, question), Ok(if either { Silent } else { Scheme }), "{edges} {longitude}");
            }
        }
    }
}

#[test]
fn a_hundred_and_eighty_degrees() {
    let holds = |edges: &str, longitude| {
        let held = with(&format!("AWR049919999020000000/0110N10S{edges}00/"));
        ask(&held, Question { longitude, ..HERE }) == Ok(Scheme)
    };
    for longitude in [-10_800, -10_799, 0, 10_799, 10_800] {
        let meridian = longitude == -10_800 || longitude == 10_800;
        assert!(holds("180W180E", longitude), "the globe");
        for edges in ["180E180W", "180E180E", "180W180W"] {
            assert_eq!(holds(edges, longitude), meridian, "{edges} {longitude}");
        }
        for edges in ["180W170W", "180E170W"] {
            assert_eq!(holds(edges, longitude), meridian || longitude == -10_799, "{edges} {longitude}");
        }
        for edges in ["170E180E", "170E180W"] {
            assert_eq!(holds(edges, longitude), meridian || longitude == 10_799, "{edges} {longitude}");
        }
    }
}

#[test]
fn phases_without_airports() {
    let at = |text: &str| [0, 1, 2].map(|phase| ask(&with(text), Question { phase, ..HERE }).unwrap());
    assert_eq!(at("AWR049999999000000000/"), [Scheme, Routine, Scheme]);
    assert_eq!(at("AWR040999999000000000/"), [Silent; 3]);
    assert_eq!(at("AWR049999000000000000/"), [Routine, Silent, Routine]);
    assert_eq!(at("AWR049999000000006000/0/"), [Silent, Silent, Routine]);
    assert_eq!(at("AWR049999000000000080/0/"), [Routine, Silent, Silent]);
}

#[test]
fn phases_with_airports() {
    let at = |text: &str| [0, 1, 2].map(|phase| ask(&with(text), Question { phase, ..HERE }).unwrap());
    assert_eq!(at("AWR049991999003000000/000000000/"), [Scheme, Routine, Scheme]);
    assert_eq!(at("AWR049991999003000000/01ABCD01WXYZ00000/"), [Scheme, Routine, Silent]);
    assert_eq!(at("AWR049991999003000000/01ABCD01WXYZ00001/"), [Scheme, Routine, Routine]);
    assert_eq!(at("AWR049991999003000000/01ABCD0001ABCD000/"), [Silent, Routine, Scheme]);
    assert_eq!(at("AWR049991099003000000/000000000/"), [Silent, Routine, Scheme], "section 6 is not asked");
    assert_eq!(at("AWR049991999003000000/01ABCD01ABCD01ABCD01ABCD1/"), [Routine; 3]);
    assert_eq!(ask(&with(&longest()), HERE), Ok(Silent));
}
