//! Rows of decisions, and of the same questions explained.

use crate::linked::uplink as linked;
use crate::measure::{best, pass, Bench, INPUTS};
use desk_compare::make::uplink::{airfield, configuration_of, edge, Lists};
use desk_compare::meet::uplink as meet;
use desk_compare::ours::uplink::Settings;
use desk_compare::random::Random;
use desk_compare::second::decide::{decide, explain, Decision, Question, Why};
use desk_compare::second::settings::*;
use desk_compare::second::{config, Refusal};

#[inline(never)]
fn second_decide(held: &Configuration, question: &Question) -> Result<Decision, Refusal> {
    decide(held, question)
}

#[inline(never)]
fn second_explain(held: &Configuration, question: &Question) -> Result<Why, Refusal> {
    explain(held, question)
}

/// Full lists that are gone through to their ends: no inhibiting box holds the place, the last reporting one does, the
/// airfield is in no inhibited list.
fn full(random: &mut Random) -> Configuration {
    let mut held = configuration_of(random, Lists::Full);
    held.flags = [1, 1, 1, 1, 1, 1, 1];
    held.sections.hours = [0, 0];
    let [north, south] = [85, 80].map(|degrees| edge(&LATITUDE, degrees));
    let [west, east] = [-10, 10].map(|degrees| edge(&LONGITUDE, degrees));
    let far = Region { north, south, west, east };
    for list in &mut held.sections.boxes {
        list.entries = [far; 16];
    }
    held.sections.boxes[0].entries[15].south = edge(&LATITUDE, -85);
    held
}

pub fn rows(bench: &Bench) {
    let mut random = Random::new(1, "bench-decide");
    for (name, held) in [("full lists", full(&mut random)), ("after reset", config::reset())] {
        let names: Vec<[u8; 4]> = (0..INPUTS).map(|_| airfield(&mut random)).collect();
        let question = |(index, airfield)| Question {
            phase: index as u8 % 3,
            latitude: random.between(-4000, 4000),
            longitude: random.between(-600, 600),
            hour: index as u8 % 24,
            airfield,
        };
        let questions: Vec<Question> = names.iter().map(|name| &name[..]).enumerate().map(question).collect();
        let settings: Settings = meet::configuration(&held);
        let decided = |question: &Question| {
            let Question { phase, hour, latitude, longitude, airfield } = *question;
            linked::decide(&settings, [phase, hour], [latitude, longitude], airfield)
        };
        let explained = |question: &Question| {
            let Question { phase, hour, latitude, longitude, airfield } = *question;
            linked::explain(&settings, [phase, hour], [latitude, longitude], airfield)
        };
        bench.row(&format!("decide, {name}"), INPUTS, None, || {
            best(|| pass(&questions, decided), || pass(&questions, |question| second_decide(&held, question)))
        });
        bench.row(&format!("explain, {name}"), INPUTS, None, || {
            best(|| pass(&questions, explained), || pass(&questions, |question| second_explain(&held, question)))
        });
    }
}
