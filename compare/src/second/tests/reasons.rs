//! Why an aircraft reports or stays silent: document 02, §1.

use super::code;
use super::commands::longest;
use crate::second::config::{apply, reset};
use crate::second::decide::Cause::{self, *};
use crate::second::decide::Decision::{self, Routine, Scheme, Silent};
use crate::second::decide::{decide, explain, Question, Why};
use crate::second::settings::Configuration;

const HERE: Question = Question { phase: 0, latitude: 0, longitude: 0, hour: 12, airfield: b"ABCD" };

fn with(text: &str) -> Configuration {
    let mut held = reset();
    apply(&mut held, text.as_bytes()).unwrap();
    held
}

/// The answer in all three phases, and that the decision alone is the same.
fn phases(held: &Configuration) -> [(Decision, Cause); 3] {
    [0, 1, 2].map(|phase| {
        let question = Question { phase, ..HERE };
        let Why { decision, cause } = explain(held, &question).unwrap();
        assert_eq!(decide(held, &question), Ok(decision));
        (decision, cause)
    })
}

fn says(text: &str, want: [(Decision, Cause); 3]) {
    assert_eq!(phases(&with(text)), want, "{text}");
}

#[test]
fn amdar_off() {
    says("AWR040999999000000000/", [(Silent, Off); 3]);
}

#[test]
fn hours() {
    says("AWR049199999000000009/1213/", [(Silent, Hours); 3]);
    let flagged = [(Scheme, Allowed(0)), (Routine, Allowed(1)), (Scheme, Allowed(2))];
    says("AWR049099999000000009/1213/", flagged);
    says("AWR049199999000000009/1112/", flagged);
    says("AWR049199999000000009/1212/", flagged);
}

#[test]
fn an_inhibiting_box_with_its_lowest_number() {
    let [here, there] = ["10N10S010W010E", "90N80N010W010E"];
    for before in 0..16 {
        for behind in [0, 15 - before] {
            let boxes = [there.repeat(before), here.repeat(1 + behind)].concat();
            let text = format!("AWR049919999020000000/00{:02}{boxes}/", 1 + before + behind);
            says(&text, [(Silent, Inside(before as u8 + 1)); 3]);
        }
    }
    says("AWR049919999020000000/000390N80N010W010E00N00N000E000E10N10S010W010E/", [(Silent, Inside(2)); 3]);
}

#[test]
fn no_reporting_box() {
    says("AWR049919999020000000/0190N80N010W010E00/", [(Silent, Outside); 3]);
    let flagged = [(Scheme, Allowed(0)), (Routine, Allowed(1)), (Scheme, Allowed(2))];
    says("AWR049919999020000000/0290N80N010W010E10N10S010W010E00/", flagged);
    says("AWR049909999020000000/0190N80N010W010E00/", flagged);
    says("AWR049919999020000000/0000/", flagged);
}

#[test]
fn the_phase_flag() {
    let flagged = [(Scheme, Allowed(0)), (Routine, Allowed(1)), (Scheme, Allowed(2))];
    assert_eq!(phases(&reset()), flagged);
    says("AWR049991999003000000/01ABCD01ABCD00000/", flagged);
    says("AWR049991999003000000/000000001/", flagged);
    says("AWR049990000000006080/0/0/", [(Silent, Forbidden(0)), (Silent, Forbidden(1)), (Silent, Forbidden(2))]);
    says("AWR049991000003000000/000000000/", [(Silent, Forbidden(0)), (Silent, Forbidden(1)), (Silent, Forbidden(2))]);
}

#[test]
fn a_digit() {
    says("AWR049990000000000000/", [(Routine, Digit(6)), (Silent, Forbidden(1)), (Routine, Digit(8))]);
    says("AWR049990000000006000/0/", [(Silent, Forbidden(0)), (Silent, Forbidden(1)), (Routine, Digit(8))]);
    says("AWR049990000000000080/0/", [(Routine, Digit(6)), (Silent, Forbidden(1)), (Silent, Forbidden(2))]);
    says("AWR049991000003006080/000000001/0/0/", [(Routine, Digit(3)), (Silent, Forbidden(1)), (Routine, Digit(3))]);
}

#[test]
fn the_airfield() {
    let level = (Routine, Allowed(1));
    says("AWR049991999003000000/000001ABCD000/", [(Silent, Inhibited), level, (Scheme, Allowed(2))]);
    says("AWR049991999003000000/00000001ABCD0/", [(Scheme, Allowed(0)), level, (Silent, Inhibited)]);
    says("AWR049991999003000000/01WXYZ0000000/", [(Silent, Unselected), level, (Scheme, Allowed(2))]);
    says("AWR049991999003000000/0001WXYZ00000/", [(Scheme, Allowed(0)), level, (Silent, Unselected)]);
    says("AWR049990999003000000/01WXYZ01WXYZ01ABCD01ABCD0/", [(Scheme, Allowed(0)), level, (Scheme, Allowed(2))]);
}

/// What keeps an aircraft from its scheme, in the order in which it is named: each by itself, every two, and so on.
#[test]
fn the_first_of_all_that_hold() {
    for (phase, flag) in [(0, 4), (2, 6)] {
        let order = [Off, Hours, Inside(1), Outside, Forbidden(phase), Inhibited, Unselected];
        for set in 0..1u32 << order.len() {
            let holds = |index: usize| set >> index & 1 == 1;
            let boxes = |index: usize, text: &'static str| if holds(index) { text } else { "00" };
            let lists = |index: usize, text: &str| if holds(index) { text.repeat(2) } else { "0000".to_string() };
            let [outside, inside] = [boxes(3, "0190N80N010W010E"), boxes(2, "0110N10S010W010E")];
            let [selected, inhibited] = [lists(6, "01WXYZ"), lists(5, "01ABCD")];
            for routine in 0..2 {
                let mut held = with(&format!(
                    "AWR041111111023000009/{outside}{inside}/{selected}{inhibited}{routine}/{}/",
                    if holds(1) { "1213" } else { "1314" }
                ));
                held.flags[0] = u8::from(!holds(0));
                held.flags[flag] = u8::from(!holds(4));
                let want = match (0..order.len()).find(|&index| holds(index)) {
                    None => (Scheme, Allowed(phase)),
                    Some(4..) if routine == 1 => (Routine, Digit(3)),
                    Some(first) => (Silent, order[first]),
                };
                assert_eq!(phases(&held)[usize::from(phase)], want, "{set:07b} phase {phase} routine {routine}");
            }
        }
    }
}

/// "Any level answer names the phase flag": neither lists nor digits count, the first four do.
#[test]
fn level_flight() {
    let lists = "01WXYZ01WXYZ01ABCD01ABCD1/1/1/";
    assert_eq!(phases(&with(&format!("AWR041001000003006080/{lists}")))[1], (Silent, Forbidden(1)));
    assert_eq!(phases(&with(&format!("AWR041001010003006080/{lists}")))[1], (Routine, Allowed(1)));
    let over = "AWR041011000020000000/0190N80N010W010E0110N10S010W010E/";
    assert_eq!(phases(&with(over))[1], (Silent, Inside(1)));
}

/// "It refuses as the decision refuses."
#[test]
fn refusals() {
    let mut wrong = reset();
    wrong.flags[0] = 9;
    assert_eq!(explain(&wrong, &Question { phase: 3, airfield: b"", ..HERE }), Err(code(12, 0)));
    let off = with("AWR040999999000000000/");
    for question in [
        Question { phase: 3, airfield: b"", ..HERE },
        Question { hour: 24, airfield: b"", ..HERE },
        Question { latitude: -5401, airfield: b"", ..HERE },
        Question { longitude: 10_801, airfield: b"", ..HERE },
    ] {
        assert_eq!(explain(&off, &question), Err(code(5, 0)), "{question:?}");
    }
    for airfield in [&b""[..], b"ABC", b"ABCDE", b"abcd"] {
        for phase in 0..3 {
            assert_eq!(explain(&off, &Question { phase, airfield, ..HERE }), Err(code(4, 0)));
        }
    }
    assert!(explain(&with(&longest()), &HERE).is_ok());
}
