//! Where the two programs meet in what goes up: commands and their sections, configurations, decisions, reasons, joins,
//! boards and journals.

use super::answer;
use crate::ours::uplink as ours;
use crate::ours::Answer;
use crate::second::board::Slot;
use crate::second::commute::Clash;
use crate::second::decide::{Cause, Decision, Why};
use crate::second::difference::Difference;
use crate::second::join::Fault;
use crate::second::journal::{Entry, NAME};
use crate::second::office::Grant;
use crate::second::settings::*;
use crate::second::tails::Found;
use crate::second::Refusal;
use std::ops::Range;

/// What esk_command_read ought to answer: the command is 0 where it refuses.
pub fn got(read: &Result<Command, Refusal>) -> ours::CommandGot {
    match read {
        Ok(read) => ours::CommandGot { answer: answer(Ok(0)), command: command(read) },
        Err(refusal) => ours::CommandGot { answer: answer(Err(*refusal)), command: Default::default() },
    }
}

/// What esk_section ought to answer.
pub fn part(found: &Result<Range<usize>, Refusal>) -> ours::Part {
    match found {
        Ok(part) => ours::Part { place: part.start, length: part.len() as u32, ..Default::default() },
        Err(Refusal { code, place }) => ours::Part { code: *code, place: *place as usize, ..Default::default() },
    }
}

/// What esk_tails_find ought to answer.
pub fn tail(found: Result<Found, Refusal>) -> ours::Tail {
    match found {
        Ok(Found { slot: Ok(slot), before }) => ours::Tail { slot: slot as u8, at: before as u8, ..Default::default() },
        Ok(Found { slot: Err(Refusal { code, .. }), before }) => {
            ours::Tail { code, at: before as u8, ..Default::default() }
        }
        Err(Refusal { code, place }) => ours::Tail { code, place: place as usize, ..Default::default() },
    }
}

/// What esk_apply ought to answer.
pub fn applied(applied: Result<u8, Refusal>) -> ours::Applied {
    match applied {
        Ok(downlink) => ours::Applied { downlink, ..Default::default() },
        Err(Refusal { code, place }) => ours::Applied { code, place: place as usize, ..Default::default() },
    }
}

/// What esk_difference ought to answer.
pub fn differing(differing: Result<(Difference, usize), Refusal>) -> ours::Differing {
    let mut items = [0; 15];
    if let Ok((of, _)) = &differing {
        items.iter_mut().zip(of.items()).for_each(|(to, item)| *to = item);
    }
    let count = items.iter().filter(|item| **item != 0).count() as u8;
    ours::Differing { answer: answer(differing.map(|(_, length)| length)), count, items }
}

/// What esk_decide ought to answer.
pub fn decided(decided: Result<Decision, Refusal>) -> ours::Decided {
    let decision = |decision| ours::Decided { decision, ..Default::default() };
    match decided {
        Ok(Decision::Silent) => decision(0),
        Ok(Decision::Routine) => decision(1),
        Ok(Decision::Scheme) => decision(2),
        Err(Refusal { code, place }) => ours::Decided { code, place: place as usize, ..Default::default() },
    }
}

/// What esk_explain ought to answer; the flags of the phases are the fifth to the seventh.
pub fn explained(explained: Result<Why, Refusal>) -> ours::Explained {
    let ours::Decided { place, code, decision, .. } = decided(explained.map(|why| why.decision));
    let (reason, number) = match explained.map(|why| why.cause) {
        Ok(Cause::Off) => (1, 0),
        Ok(Cause::Hours) => (2, 0),
        Ok(Cause::Inside(number)) => (3, number),
        Ok(Cause::Outside) => (4, 0),
        Ok(Cause::Allowed(phase)) => (5, 5 + phase),
        Ok(Cause::Digit(section)) => (6, section),
        Ok(Cause::Forbidden(phase)) => (7, 5 + phase),
        Ok(Cause::Inhibited) => (8, 0),
        Ok(Cause::Unselected) => (9, 0),
        Err(_) => (0, 0),
    };
    ours::Explained { place, code, decision, reason, number, spare: 0 }
}

/// What esk_join ought to answer.
pub fn joined(joined: Result<usize, Fault>) -> Answer {
    match joined {
        Ok(length) => answer(Ok(length)),
        Err(Fault { text, refusal }) => Answer { text, ..answer(Err(refusal)) },
    }
}

/// What esk_commute ought to answer: a bit for each flag and section that clashes.
pub fn commutes(clash: Result<Clash, Fault>) -> ours::CommuteAnswer {
    fn bits<const N: usize>(of: [bool; N]) -> u8 {
        of.iter().rev().fold(0, |bits, bit| bits << 1 | u8::from(*bit))
    }
    match clash {
        Ok(clash) => ours::CommuteAnswer {
            yes: clash.none().into(),
            flags: bits(clash.flags),
            sections: bits(clash.sections),
            ..Default::default()
        },
        Err(Fault { text, refusal: Refusal { code, place } }) => {
            ours::CommuteAnswer { place: place as usize, code, text, ..Default::default() }
        }
    }
}

pub fn command(from: &Command) -> ours::Command {
    ours::Command {
        settings: settings(from.flags, &from.sections),
        downlink: from.downlink,
        named: from.named,
        spare: from.spare,
    }
}

/// What the header's command means.
pub fn meant_command(from: &ours::Command) -> Command {
    let Configuration { flags, sections } = meant_settings(&from.settings);
    Command { flags, downlink: from.downlink, named: from.named, spare: from.spare, sections }
}

pub fn configuration(from: &Configuration) -> ours::Settings {
    settings(from.flags, &from.sections)
}

/// A record's numbers, each of which the header's own type holds.
fn settings(flags: Flags, sections: &Sections) -> ours::Settings {
    let byte = |number: u16| u8::try_from(number).expect("a byte in the header");
    let [mode, interval1, duration, interval2, total, top, list, timer] = sections.ascent;
    let [descent_mode, interval, descent_top, descent_list, descent_timer] = sections.descent;
    let [reporting, inhibiting] = sections.boxes.map(boxes);
    let lists = sections.airfields.map(|list| ours::Airfields { count: list.count, names: list.entries });
    ours::Settings {
        flags,
        regions: ours::Regions { reporting, inhibiting },
        airports: ours::Airports {
            selected: ours::ByPhase { ascent: lists[0], descent: lists[1] },
            inhibited: ours::ByPhase { ascent: lists[2], descent: lists[3] },
            routine: byte(sections.airports[0]),
        },
        enroute: ours::Enroute { interval: byte(sections.enroute[0]), wind: byte(sections.enroute[1]) },
        ascent: ours::Ascent {
            mode: byte(mode),
            interval1: byte(interval1),
            duration,
            interval2: byte(interval2),
            total: byte(total),
            top,
            list: byte(list),
            timer: byte(timer),
        },
        descent: ours::Descent {
            mode: descent_mode,
            interval,
            top: descent_top,
            list: byte(descent_list),
            timer: byte(descent_timer),
        },
        routine6: byte(sections.routine6[0]),
        routine8: byte(sections.routine8[0]),
        hours: ours::Hours { start: byte(sections.hours[0]), end: byte(sections.hours[1]) },
    }
}

fn boxes(list: Boxes) -> ours::Boxes {
    let edge = |edge: Edge| ours::Edge { degrees: edge.degrees, letter: edge.letter };
    let region = |region: Region| ours::Region {
        north: edge(region.north),
        south: edge(region.south),
        west: edge(region.west),
        east: edge(region.east),
    };
    ours::Boxes { count: list.count, regions: list.entries.map(region) }
}

/// What the header's configuration means.
pub fn meant_settings(from: &ours::Settings) -> Configuration {
    let ours::Airports { selected, inhibited, routine } = from.airports;
    let lists = [selected.ascent, selected.descent, inhibited.ascent, inhibited.descent];
    let number = u16::from;
    let ours::Ascent { mode, interval1, duration, interval2, total, top, list, timer } = from.ascent;
    let [mode, interval1, interval2, total] = [mode, interval1, interval2, total].map(number);
    let descent = from.descent;
    let sections = Sections {
        boxes: [from.regions.reporting, from.regions.inhibiting].map(meant_boxes),
        airfields: lists.map(|list| Airfields { count: list.count, entries: list.names }),
        airports: [number(routine)],
        enroute: [from.enroute.interval, from.enroute.wind].map(number),
        ascent: [mode, interval1, duration, interval2, total, top, number(list), number(timer)],
        routine6: [number(from.routine6)],
        descent: [descent.mode, descent.interval, descent.top, number(descent.list), number(descent.timer)],
        routine8: [number(from.routine8)],
        hours: [from.hours.start, from.hours.end].map(number),
    };
    Configuration { flags: from.flags, sections }
}

fn meant_boxes(list: ours::Boxes) -> Boxes {
    let edge = |edge: ours::Edge| Edge { degrees: edge.degrees, letter: edge.letter };
    let region = |region: ours::Region| Region {
        north: edge(region.north),
        south: edge(region.south),
        west: edge(region.west),
        east: edge(region.east),
    };
    Boxes { count: list.count, entries: list.regions.map(region) }
}

pub fn slot(from: &Slot) -> ours::Slot {
    ours::Slot { designator: from.designator, length: from.length }
}

/// "A byte that is not 0 grants."
pub fn meant_grant(from: &ours::Grant) -> Grant {
    let is = |byte: u8| byte != 0;
    Grant { flags: from.flags.map(is), downlinks: is(from.downlinks), sections: from.sections.map(is) }
}

pub fn meant_slot(from: &ours::Slot) -> Slot {
    Slot { designator: from.designator, length: from.length }
}

/// What esk_journal_last ought to answer: all 0 where there is no entry, nothing but code and place where it refuses.
pub fn entry(last: Result<Option<Entry>, Refusal>) -> ours::Entry {
    match last {
        Ok(Some(Entry { offset, text, .. })) => {
            ours::Entry { offset, text: offset + NAME, length: text.len() as u32, given: 1, ..Default::default() }
        }
        Ok(None) => ours::Entry::default(),
        Err(Refusal { code, place }) => ours::Entry { code, place: place as usize, ..Default::default() },
    }
}
