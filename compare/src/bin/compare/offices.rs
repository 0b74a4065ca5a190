//! Families of two offices on one board.

use crate::boards::{aircraft, designator, empty};
use crate::queue::Queue;
use crate::run::Run;
use desk_compare::cases::board::{Case, Event, Pair};
use desk_compare::make::uplink;
use desk_compare::ours::bytes_of;
use desk_compare::ours::uplink::Grant;
use desk_compare::random::Random;
use desk_compare::second::settings::MOST;

/// Events of one night.
const NIGHT: usize = 100;

pub fn families(run: &mut Run) {
    let nights = run.turns(400);
    run.family(
        "office",
        "nights of two offices within their grants, and out of them in one byte, some with grants that overlap",
        |random, queue| {
            for _ in 0..nights {
                let slots = random.of(&[0, 1, 2, 3, 7]);
                let grants = if random.percent(90) { apart(random) } else { any(random) };
                let mut night = empty(random, slots);
                night.events = (0..NIGHT).map(|_| event(random, grants, slots + 2)).collect();
                queue.case(night)?;
            }
            Ok(())
        },
    );
    let turns = run.turns(1_000);
    run.family(
        "office-invalid",
        "boards that are not valid, grants that overlap, wrong designators and texts: the order of refusals",
        |random, queue| {
            for _ in 0..turns {
                let mut board = empty(random, 2);
                if random.percent(50) {
                    board.area.pop();
                }
                let mut grants = apart(random);
                if random.percent(30) {
                    let byte = random.below(16);
                    grants = grants.map(|grant| with(grant, byte, 1 + random.below(255) as u8));
                }
                board.events = (0..8).map(|_| event(random, grants, 4)).collect();
                queue.case(board)?;
            }
            Ok(())
        },
    );
    let pairs = run.turns(100_000);
    run.family(
        "office-pairs",
        "pairs of nights that differ in the other office's commands alone: an office finds its own as it was",
        |random, queue: &mut Queue<Pair>| (0..pairs).try_for_each(|_| queue.case(pair(random))),
    );
}

/// A grant with another byte.
fn with(grant: Grant, at: usize, byte: u8) -> Grant {
    let mut bytes: [u8; 16] = bytes_of(&grant).try_into().expect("16 bytes");
    bytes[at] = byte;
    desk_compare::ours::of_bytes(&bytes)
}

/// Two grants that share nothing; some things are granted to neither.
fn apart(random: &mut Random) -> [Grant; 2] {
    let mut grants = [Grant::default(); 2];
    for byte in 0..16 {
        let whose = random.below(5);
        let grant = 1 + random.of(&[0, 0, 1, 254]);
        if whose < 4 {
            grants[whose / 2] = with(grants[whose / 2], byte, grant);
        }
    }
    grants
}

fn any(random: &mut Random) -> [Grant; 2] {
    let mut grants = [Grant::default(); 2];
    for grant in &mut grants {
        for byte in 0..16 {
            *grant = with(*grant, byte, random.of(&[0, 0, 1, 255]));
        }
    }
    grants
}

/// A command within a grant.
fn within(random: &mut Random, grant: &Grant) -> Vec<u8> {
    let make = if random.percent(90) { uplink::short_command } else { uplink::command };
    let all = make(random);
    let is = |index: usize| grant.sections[index] != 0 && all.named[index] != 0;
    let mut some = uplink::named_of(&all, (0..8).filter(|&index| is(index)).map(|index| 1 << index).sum());
    for (flag, granted) in some.flags.iter_mut().zip(grant.flags) {
        if granted == 0 {
            *flag = 9;
        }
    }
    if grant.downlinks == 0 {
        some.downlink = 0;
    }
    uplink::text(&some)
}

/// An adding by either office, in one of five out of its grant by what one byte more would give it, or a taking.
fn event(random: &mut Random, grants: [Grant; 2], fleet: usize) -> Event {
    let designator = designator(random, fleet);
    if random.percent(15) {
        return Event::Take { designator, room: random.of(&[0, 30, MOST, MOST]) };
    }
    let [one, other] = grants;
    let [own, other] = random.of(&[[one, other], [other, one]]);
    let asks = if random.percent(20) { with(own, random.below(16), 1) } else { own };
    let mut text = if random.percent(95) { within(random, &asks) } else { uplink::text(&uplink::command(random)) };
    if random.percent(5) {
        uplink::damage(random, &mut text);
    }
    Event::Office { grants: [own, other], designator, text }
}

/// A night of an office on a board with room for all, and twice what the other sends in between.
fn pair(random: &mut Random) -> Pair {
    let [own, other] = apart(random);
    let fleet = 1 + random.below(3);
    let mut nights = [0, 1].map(|_| empty(random, fleet));
    for _ in 0..random.below(8) {
        let designator = aircraft(random.below(fleet)).to_vec();
        let event = if random.percent(15) {
            Event::Take { designator, room: MOST }
        } else {
            Event::Office { grants: [own, other], designator, text: within(random, &own) }
        };
        for Case { events, .. } in &mut nights {
            for _ in 0..random.below(3) {
                let designator = aircraft(random.below(fleet)).to_vec();
                events.push(Event::Office { grants: [other, own], designator, text: within(random, &other) });
            }
            events.push(event.clone());
        }
    }
    Pair { nights, own }
}
