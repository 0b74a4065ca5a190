//! Families of explanations: those of decisions, and those in which many reasons hold at once.

use crate::decisions::{ask, at, boxes, families_of, list, question, region, HERE};
use crate::queue;
use crate::run::{Done, Run};
use desk_compare::cases::decide::Question;
use desk_compare::cases::{decide, explain};
use desk_compare::make::{faults, uplink};
use desk_compare::meet::uplink as meet;
use desk_compare::random::Random;
use desk_compare::second::config;
use desk_compare::second::settings::*;

type Queue = queue::Queue<explain::Case>;

pub fn families(run: &mut Run) {
    families_of::<explain::Case>(run, "explain");
    run.family(
        "explain-boxes",
        "lists of up to 16 inhibiting boxes, every choice of those that hold the place",
        choices,
    );
    run.family("explain-together", "every reason beside every other, in every phase and with every digit", together);
    let turns = run.turns(40_000);
    run.family(
        "explain-every",
        "random configurations x 50 questions, one in ten damaged; every reason, number and code met",
        |random, queue| {
            for _ in 0..turns {
                let held = past(random);
                let questions = (0..50).map(|_| question(random, &held)).collect();
                let mut settings = meet::configuration(&held);
                if random.percent(10) {
                    faults::settings(random, &mut settings);
                }
                queue.case(decide::Case { settings: Box::new(settings), questions }.into())?;
            }
            every(queue)
        },
    );
}

/// Fails where a reason, a number of one, or a refusal was not met.
fn every(queue: &mut Queue) -> Done {
    let unmet = queue.unmet()?;
    assert!(unmet.is_empty(), "not met: {}", unmet.join(", "));
    Ok(())
}

/// A configuration in which the first reasons are mostly out of the way, so that the later ones are met as often.
fn past(random: &mut Random) -> Configuration {
    let mut held = uplink::configuration(random);
    held.flags[0] = u8::from(random.percent(95));
    held.flags[1] = u8::from(random.percent(20));
    held.flags[2] = u8::from(random.percent(50));
    held.flags[3] = u8::from(random.percent(70));
    held
}

/// Lists of inhibiting boxes of every length, of which each either holds 0 N 0 E or misses it on one side.
fn choices(_: &mut Random, queue: &mut Queue) -> Done {
    let holding = region([10, -10, -10, 10]);
    let missing = [[10, 1, -10, 10], [-1, -10, -10, 10], [10, -10, 1, 10], [10, -10, -10, -1]].map(region);
    let places = [(0, 0), (59, 59), (60, 60), (-60, -60), (-59, 61)];
    let place = |(latitude, longitude)| (0..3).map(move |phase| Question { phase, latitude, longitude, ..HERE });
    let questions: Vec<Question> = places.into_iter().flat_map(place).collect();
    let mut held = config::reset();
    held.flags[2] = 1;
    for length in 0..=16 {
        for choice in 0..1u32 << length {
            let one = |index: usize| if choice >> index & 1 == 1 { holding } else { missing[index % 4] };
            let regions: Vec<Region> = (0..length).map(one).collect();
            let reporting = if choice % 3 == 0 { boxes(&[missing[length % 4]]) } else { Boxes::default() };
            held.sections.boxes = [reporting, boxes(&regions)];
            ask(queue, &held, questions.clone())?;
        }
    }
    Ok(())
}

/// Seven things keep an aircraft from its scheme: every set of them, with each box the first that holds the place, with
/// and without airports, and with every digit; refusals come in front of all.
fn together(_: &mut Random, queue: &mut Queue) -> Done {
    let [here, there] = [region([10, -10, -10, 10]), region([90, 80, -10, 10])];
    let good = (0..3).map(|phase| Question { phase, ..at(*b"ABCD") });
    let bad = [Question { phase: 3, ..HERE }, Question { hour: 24, ..HERE }, Question { length: 3, ..HERE }];
    let questions: Vec<Question> = good.chain(bad).collect();
    for set in 0..1u32 << 7 {
        let holds = |index: usize| set >> index & 1 == 1;
        let mut held = config::reset();
        held.flags = [!holds(0), true, true, true, !holds(4), !holds(4), !holds(4)].map(u8::from);
        held.sections.hours = if holds(1) { [12, 13] } else { [13, 12] };
        let so_many = |index| usize::from(holds(index));
        let reporting = boxes(&[there][..so_many(3)]);
        let inhibited = list(&[*b"ABCD"][..so_many(5)]);
        let selected = list(&[*b"WXYZ"][..so_many(6)]);
        held.sections.airfields = [selected, selected, inhibited, inhibited];
        for number in 1..=16 {
            let mut regions = [there; 16];
            if holds(2) {
                regions[number - 1..].fill(here);
            }
            held.sections.boxes = [reporting, boxes(&regions)];
            for digits in 0..1u16 << 4 {
                let digit = |index: usize| digits >> index & 1;
                held.flags[3] = digit(0) as u8;
                let sections = &mut held.sections;
                (sections.airports, sections.routine6, sections.routine8) = ([digit(1)], [digit(2)], [digit(3)]);
                ask(queue, &held, questions.clone())?;
            }
        }
    }
    let mut settings = meet::configuration(&config::reset());
    settings.flags[0] = 9;
    queue.case(decide::Case { settings: Box::new(settings), questions }.into())?;
    every(queue)
}
