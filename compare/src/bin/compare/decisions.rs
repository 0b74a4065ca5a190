//! Families of decisions; explanations are asked the same.

use crate::queue::Queue;
use crate::run::{Done, Run};
use desk_compare::cases::decide::{Case, Question};
use desk_compare::cases::Case as Asked;
use desk_compare::make::uplink::{self, Lists, AIRFIELDS};
use desk_compare::make::{faults, odd_byte};
use desk_compare::meet::uplink as meet;
use desk_compare::random::Random;
use desk_compare::second::config;
use desk_compare::second::settings::*;

pub fn families(run: &mut Run) {
    families_of::<Case>(run, "decide");
}

/// The families of a call that is asked as a decision is.
pub fn families_of<C: Asked + From<Case>>(run: &mut Run, call: &str) {
    let name = |of: &str| format!("{call}-{of}");
    run.family(&name("flags"), "every flag and routine digit x phase, airfield, hour and place in and out", flags::<C>);
    run.family(&name("hours"), "every start, end and hour", hours::<C>);
    run.family(&name("edges"), "on, inside and outside every edge of boxes, by a minute", edges::<C>);
    run.family(
        &name("date-line"),
        "every two longitudes of 0, 1, 89, 90, 170, 179 and 180 E and W, on, a minute beside and far from every edge",
        date_line::<C>,
    );
    run.family(&name("airfields"), "lists of every length, the airfield at every place", airfields::<C>);
    run.family(
        &name("refused"),
        "phases, hours, places and airfields out of range; configurations not valid",
        refused::<C>,
    );
    let turns = run.turns(25_000);
    run.family(&name("random"), "random valid configurations x 50 questions", |random, queue: &mut Queue<C>| {
        for _ in 0..turns {
            let mut held = uplink::configuration(random);
            if random.percent(80) {
                held.flags[0] = 1;
            }
            let questions = (0..50).map(|_| question(random, &held)).collect();
            ask(queue, &held, questions)?;
        }
        Ok(())
    });
    let turns = run.turns(20_000);
    run.family(
        &name("damaged"),
        "random configurations, one or two members changed, x 5 questions",
        |random, queue: &mut Queue<C>| {
            for _ in 0..turns {
                let held = uplink::configuration(random);
                let questions = (0..5).map(|_| question(random, &held)).collect();
                let mut settings = meet::configuration(&held);
                for _ in 0..1 + random.below(2) {
                    faults::settings(random, &mut settings);
                }
                queue.case(Case { settings: Box::new(settings), questions }.into())?;
            }
            Ok(())
        },
    );
}

pub fn ask<C: Asked + From<Case>>(queue: &mut Queue<C>, held: &Configuration, questions: Vec<Question>) -> Done {
    queue.case(Case { settings: Box::new(meet::configuration(held)), questions }.into())
}

pub const HERE: Question =
    Question { phase: 0, hour: 12, latitude: 0, longitude: 0, airfield: *b"ABCD\0\0", length: 4 };

pub fn at(airfield: [u8; 4]) -> Question {
    let mut question = HERE;
    question.airfield[..4].copy_from_slice(&airfield);
    question
}

/// A question with weight on the edges of the configuration's boxes, on poles, 180 degrees and midnight, and on its
/// airfields; one in twenty is out of range.
pub fn question(random: &mut Random, held: &Configuration) -> Question {
    let sections = &held.sections;
    let boxes = &sections.boxes[random.below(2)];
    let region = if boxes.count > 0 { random.of(boxes.used()) } else { Region::default() };
    let list = &sections.airfields[random.below(4)];
    let airfield = match random.below(3) {
        0 if list.count > 0 => random.of(list.used()),
        1 => random.of(&AIRFIELDS),
        _ => uplink::airfield(random),
    };
    let [start, end] = sections.hours.map(|hour| hour as u8);
    let any = random.below(24) as u8;
    let hour = random.of(&[0, 23, start, end, (start + 23) % 24, (end + 23) % 24, any]);
    let latitude = minutes(random, [region.north, region.south].map(|edge| LATITUDE.degrees(edge)), 5400);
    let longitude = minutes(random, [region.west, region.east].map(|edge| LONGITUDE.degrees(edge)), 10_800);
    let mut question = Question { phase: random.below(3) as u8, hour, latitude, longitude, ..at(airfield) };
    if random.percent(5) {
        for _ in 0..1 + random.below(2) {
            wrong(random, &mut question);
        }
    }
    question
}

fn minutes(random: &mut Random, edges: [i32; 2], most: i32) -> i32 {
    let edge = 60 * random.of(&edges);
    let near = edge + random.of(&[-1, 0, 0, 1]);
    let between = random.between(60 * edges[0].min(edges[1]), 60 * edges[0].max(edges[1]));
    let any = random.between(-most, most);
    random.of(&[near, near, near, between, between, any, -most, most, 0]).clamp(-most, most)
}

/// Puts one member out of its range.
fn wrong(random: &mut Random, question: &mut Question) {
    match random.below(5) {
        0 => question.phase = random.of(&[3, 4, 255]),
        1 => question.hour = random.of(&[24, 25, 255]),
        2 => question.latitude = random.of(&[-5401, 5401, i32::MIN, i32::MAX]),
        3 => question.longitude = random.of(&[-10_801, 10_801, i32::MIN, i32::MAX]),
        _ => {
            question.length = random.of(&[0, 3, 4, 5, 6]);
            question.airfield[random.below(4)] = odd_byte(random);
        }
    }
}

pub fn list(names: &[[u8; 4]]) -> Airfields {
    let entry = |index| names.get(index).copied().unwrap_or_default();
    Airfields { count: names.len() as u8, entries: std::array::from_fn(entry) }
}

pub fn boxes(regions: &[Region]) -> Boxes {
    let entry = |index| regions.get(index).copied().unwrap_or_default();
    Boxes { count: regions.len() as u8, entries: std::array::from_fn(entry) }
}

/// A box in degrees: north, south, west, east.
pub fn region([north, south, west, east]: [i32; 4]) -> Region {
    let [north, south] = [north, south].map(|degrees| uplink::edge(&LATITUDE, degrees));
    let [west, east] = [west, east].map(|degrees| uplink::edge(&LONGITUDE, degrees));
    Region { north, south, west, east }
}

fn flags<C: Asked + From<Case>>(_: &mut Random, queue: &mut Queue<C>) -> Done {
    let mut held = config::reset();
    held.sections.hours = [11, 12];
    held.sections.boxes = [boxes(&[region([10, -10, -10, 10])]), boxes(&[region([1, 0, 0, 1])])];
    let [one, two, three] = [*b"AAAA", *b"BBBB", *b"CCCC"];
    held.sections.airfields = [list(&[one, two]), list(&[two, three]), list(&[two]), list(&[three])];
    let mut questions = Vec::new();
    for airfield in [one, two, three, *b"DDDD"] {
        for (hour, latitude, longitude) in [(10, -60, 0), (11, -60, 0), (12, 30, 30), (12, 601, 0), (12, 600, -600)] {
            questions.extend((0..3).map(|phase| Question { phase, hour, latitude, longitude, ..at(airfield) }));
        }
    }
    for bits in 0..1u16 << 10 {
        let bit = |index: usize| bits >> index & 1;
        held.flags = std::array::from_fn(|index| bit(index) as u8);
        (held.sections.airports, held.sections.routine6, held.sections.routine8) = ([bit(7)], [bit(8)], [bit(9)]);
        ask(queue, &held, questions.clone())?;
    }
    Ok(())
}

fn hours<C: Asked + From<Case>>(_: &mut Random, queue: &mut Queue<C>) -> Done {
    let mut held = config::reset();
    for inhibit in 0..2 {
        held.flags[1] = inhibit;
        for start in 0..24 {
            for end in 0..24 {
                held.sections.hours = [start, end];
                ask(queue, &held, (0..24).map(|hour| Question { hour, ..HERE }).collect())?;
            }
        }
    }
    Ok(())
}

fn edges<C: Asked + From<Case>>(random: &mut Random, queue: &mut Queue<C>) -> Done {
    let mut regions = vec![[90, -90, -180, 180], [0; 4], [90, 90, 180, 180], [-90, -90, -180, -180], [1, -1, -1, 1]];
    let mut two = |most: i32| [random.between(-most, most), random.between(-most, most)];
    for _ in 0..200 {
        let ([a, b], [c, d]) = (two(90), two(180));
        regions.push([a.max(b), a.min(b), c, d]);
    }
    let mut held = config::reset();
    held.flags[2] = 1;
    for (index, &of) in regions.iter().enumerate() {
        let mut questions = Vec::new();
        for latitude in round([of[0], of[1]], 5400) {
            let places = round([of[2], of[3]], 10_800);
            questions.extend(places.iter().map(|&longitude| Question { latitude, longitude, ..HERE }));
        }
        let (one, globe) = (region(of), region(regions[0]));
        let another = region(regions[(index + 1) % regions.len()]);
        let lists: [[&[Region]; 2]; 6] = [
            [&[one], &[]],
            [&[], &[one]],
            [&[one], &[one]],
            [&[globe], &[another, one]],
            [&[another, one], &[]],
            [&[one; 16], &[another; 16]],
        ];
        for [reporting, inhibiting] in lists {
            held.sections.boxes = [boxes(reporting), boxes(inhibiting)];
            ask(queue, &held, questions.clone())?;
        }
    }
    Ok(())
}

/// Boxes from every edge to every other, reporting and inhibiting, alone and behind one that holds nothing that is asked.
fn date_line<C: Asked + From<Case>>(_: &mut Random, queue: &mut Queue<C>) -> Done {
    let degrees = [-180, -179, -170, -90, -89, -1, 0, 1, 89, 90, 170, 179, 180];
    let places: Vec<i32> = degrees.iter().flat_map(|edge| round([*edge, 180], 10_800)).collect();
    let question = |longitude| [0, 600, 601].map(|latitude| Question { latitude, longitude, ..HERE });
    let questions: Vec<Question> = places.into_iter().flat_map(question).collect();
    let far = region([90, 80, 170, -170]);
    let mut held = config::reset();
    held.flags[2] = 1;
    for west in degrees {
        for east in degrees {
            let one = region([10, -10, west, east]);
            let lists: [[&[Region]; 2]; 4] =
                [[&[one], &[]], [&[], &[one]], [&[far, one], &[far]], [&[one], &[far, one]]];
            for [reporting, inhibiting] in lists {
                held.sections.boxes = [boxes(reporting), boxes(inhibiting)];
                ask(queue, &held, questions.clone())?;
            }
        }
    }
    Ok(())
}

/// On both edges, a minute to each side, between, and at both ends.
fn round([one, other]: [i32; 2], most: i32) -> Vec<i32> {
    let (one, other) = (60 * one, 60 * other);
    let near = [one - 1, one, one + 1, (one + other) / 2, other - 1, other, other + 1, -most, most];
    near.into_iter().filter(|minutes| (-most..=most).contains(minutes)).collect()
}

/// Of four lists one is filled up to every length; the questions ask for each of its names, and for names near them.
fn airfields<C: Asked + From<Case>>(random: &mut Random, queue: &mut Queue<C>) -> Done {
    let mut held = config::reset();
    held.flags = [1; 7];
    held.flags[1..3].fill(0);
    for index in 0..4 {
        for length in 0..=20 {
            let mut names: Vec<[u8; 4]> = (0..length).map(|_| uplink::airfield(random)).collect();
            if length > 1 && random.percent(30) {
                names[length - 1] = names[0];
            }
            held.sections.airfields = [Airfields::default(); 4];
            held.sections.airfields[index] = list(&names);
            names.extend(AIRFIELDS);
            let mut questions = Vec::new();
            for mut name in names {
                questions.extend((0..3).map(|phase| Question { phase, ..at(name) }));
                name[random.below(4)] = random.of(b"A0Z9");
                questions.extend((0..3).map(|phase| Question { phase, ..at(name) }));
                name.rotate_left(1);
                questions.extend((0..3).map(|phase| Question { phase, ..at(name) }));
            }
            for routine in 0..2 {
                held.sections.airports = [routine];
                ask(queue, &held, questions.clone())?;
            }
        }
    }
    Ok(())
}

fn refused<C: Asked + From<Case>>(random: &mut Random, queue: &mut Queue<C>) -> Done {
    let held = uplink::configuration_of(random, Lists::Few);
    let mut questions: Vec<Question> = (0..=255).map(|phase| Question { phase, ..HERE }).collect();
    questions.extend((0..=255).map(|hour| Question { hour, ..HERE }));
    for at in 0..4 {
        for byte in 0..=255 {
            for phase in 0..3 {
                let mut question = Question { phase, ..HERE };
                question.airfield[at] = byte;
                questions.push(question);
            }
        }
    }
    for length in 0..=6 {
        questions.push(Question { length, airfield: *b"ABCDEF", ..HERE });
    }
    for limit in [5400, 10_800, i32::MAX] {
        for minutes in [-limit - 1, -limit, 1 - limit, limit - 1, limit, limit.wrapping_add(1)] {
            questions.push(Question { latitude: minutes, ..HERE });
            questions.push(Question { longitude: minutes, ..HERE });
        }
    }
    for _ in 0..2000 {
        let mut question = question(random, &held);
        wrong(random, &mut question);
        wrong(random, &mut question);
        questions.push(question);
    }
    ask(queue, &held, questions.clone())?;
    let mut settings = meet::configuration(&held);
    settings.flags[6] = 9;
    queue.case(Case { settings: Box::new(settings), questions }.into())
}
