//! Families of pairs of commands whose order may be of no account: those that share nothing, share the same, or share
//! what differs, in each flag and each section.

use crate::queue;
use crate::run::{Done, Run};
use desk_compare::cases::commute::Case;
use desk_compare::cases::Case as _;
use desk_compare::figures::{JOIN, NO_CHANGE};
use desk_compare::make::uplink::{self, Lists};
use desk_compare::meet::uplink as meet;
use desk_compare::random::Random;
use desk_compare::second::commute::commute;
use desk_compare::second::settings::MOST;
use desk_compare::second::{config, join};

type Queue = queue::Queue<Case>;

/// Pairs, and whether their order is of no account.
const KNOWN: [([&[u8]; 2], bool); 8] = [
    ([NO_CHANGE, NO_CHANGE], true),
    ([JOIN[0], JOIN[1]], false),
    ([JOIN[1], JOIN[2]], true),
    ([JOIN[0], NO_CHANGE], true),
    ([b"AWR041999999000000000/", b"AWR041199999200000000/"], true),
    ([b"AWR041999999000000000/", b"AWR040999999000000000/"], false),
    ([b"AWR049999999000006000/1/", b"AWR049999999000000080/0/"], true),
    ([b"AWR049999999000000700/104020021/", b"AWR049999999000000700/104020020/"], false),
];

pub fn families(run: &mut Run) {
    run.family(
        "commute-known",
        "pairs whose answer is plain from document 02, §12, both programs",
        |random, queue| KNOWN.into_iter().try_for_each(|(pair, want)| known(random, queue, pair, want)),
    );
    run.family("commute-flags", "every two digits as every flag, the others at random", |random, queue| {
        (0..40).try_for_each(|_| flags(random, queue))
    });
    run.family(
        "commute-sections",
        "every choice of named sections with every other, shared ones the same or not",
        |random, queue| {
            (0..256).try_for_each(|bits| (0..256).try_for_each(|other| sections(random, queue, bits, other)))
        },
    );
    run.family(
        "commute-substitution",
        "commands of 5 shapes beside themselves with every byte made every other",
        |random, queue| shapes(random).iter().try_for_each(|shape| substitutions(random, queue, shape)),
    );
    let turns = run.turns(60_000);
    run.family("commute-random", "random pairs, one in three of them made from one another", |random, queue| {
        (0..turns).try_for_each(|_| pair(random, queue))
    });
    let turns = run.turns(40_000);
    run.family(
        "commute-laws",
        "a join with itself, and an earlier copy of the second in front of it",
        |random, queue| (0..turns).try_for_each(|_| laws(random, queue)),
    );
    let turns = run.turns(60_000);
    run.family("commute-damaged", "random pairs, one or both damaged or too long", |random, queue| {
        (0..turns).try_for_each(|_| damaged(random, queue))
    });
}

fn ask(random: &mut Random, queue: &mut Queue, first: &[u8], second: &[u8]) -> Done {
    queue.case(case(random, first, second))
}

/// With a valid configuration that both are applied to.
fn case(random: &mut Random, first: &[u8], second: &[u8]) -> Case {
    let held = if random.percent(20) { config::reset() } else { uplink::configuration(random) };
    Case { first: first.to_vec(), second: second.to_vec(), settings: Box::new(meet::configuration(&held)) }
}

fn known(random: &mut Random, queue: &mut Queue, [first, second]: [&[u8]; 2], want: bool) -> Done {
    let case = case(random, first, second);
    let got = commute(first, second).map(|clash| clash.none());
    if got != Ok(want) {
        return case.mismatch("a known pair", format!("document 02: {want}"), format!("{got:?}"));
    }
    queue.case(case)
}

fn flags(random: &mut Random, queue: &mut Queue) -> Done {
    for flag in 0..7 {
        for digits in [0, 1, 9].map(|one| [0, 1, 9].map(|other| [one, other])).concat() {
            let [first, second] = digits.map(|digit| {
                let mut command = uplink::short_command(random);
                command.flags = std::array::from_fn(|_| random.of(&[0, 9, 9]));
                command.flags[flag] = digit;
                uplink::text(&command)
            });
            ask(random, queue, &first, &second)?;
        }
    }
    Ok(())
}

/// Two commands that name these sections; of those that both name every second one is the same in both, or all are. The
/// flags are mostly the same too, so that it is the sections that decide.
fn sections(random: &mut Random, queue: &mut Queue, bits: u32, other: u32) -> Done {
    let alike = if random.percent(30) { 0xff } else { random.below(256) as u32 };
    let first = uplink::command_of(random, 0xff, Lists::Few);
    let mut second = uplink::command_of(random, 0xff, Lists::Few);
    uplink::copy_sections(&first.sections, &mut second.sections, alike);
    if random.percent(90) {
        second.flags = first.flags;
    }
    let [first, second] = [(first, bits), (second, other)].map(|(of, bits)| uplink::text(&uplink::named_of(&of, bits)));
    ask(random, queue, &first, &second)
}

/// Nothing named, every section at its shortest, with few entries and full, and one without lists.
fn shapes(random: &mut Random) -> Vec<Vec<u8>> {
    let mut shape = |bits, lists| uplink::text(&uplink::command_of(random, bits, lists));
    vec![
        shape(0, Lists::Empty),
        shape(0xff, Lists::Empty),
        shape(0xff, Lists::Few),
        shape(0xfc, Lists::Empty),
        shape(0xff, Lists::Full),
    ]
}

fn substitutions(random: &mut Random, queue: &mut Queue, shape: &[u8]) -> Done {
    for at in 0..shape.len() {
        let mut changed = shape.to_vec();
        let bytes: Vec<u8> = if shape.len() < 200 { (0..=255).collect() } else { b"/0123456789:ABENSWZ\0".to_vec() };
        for byte in bytes {
            changed[at] = byte;
            ask(random, queue, shape, &changed)?;
        }
    }
    Ok(())
}

fn text(random: &mut Random) -> Vec<u8> {
    match random.below(10) {
        0 => uplink::full_text(random),
        1..=4 => uplink::text(&uplink::short_command(random)),
        _ => uplink::text(&uplink::command(random)),
    }
}

/// The second program's join of two accepted texts.
fn joined(first: &[u8], second: &[u8]) -> Vec<u8> {
    let mut out = vec![0; MOST];
    let length = join::join(first, second, &mut out).expect("accepted texts join within the longest command's bytes");
    out.truncate(length);
    out
}

fn pair(random: &mut Random, queue: &mut Queue) -> Done {
    let [first, mut second] = [text(random), text(random)];
    match random.below(6) {
        0 => second = joined(&first, &second),
        1 => second = joined(&second, &first),
        _ => (),
    }
    ask(random, queue, &first, &second)
}

/// Of the second program's joins; what they join to is asked beside what it came of.
fn laws(random: &mut Random, queue: &mut Queue) -> Done {
    let [first, second] = [text(random), text(random)];
    let both = joined(&first, &second);
    for (law, one, other) in [
        ("a command joined to itself", joined(&first, &first), &first),
        ("an earlier copy of the second in front of a join", joined(&second, &both), &both),
    ] {
        if one != *other {
            let [one, other] = [&one, other].map(|text| text.escape_ascii().to_string());
            return case(random, &first, &second).mismatch(law, one, other);
        }
    }
    ask(random, queue, &first, &first)?;
    ask(random, queue, &second, &both)?;
    ask(random, queue, &first, &both)
}

fn damaged(random: &mut Random, queue: &mut Queue) -> Done {
    let mut texts = [text(random), text(random)];
    let which = random.below(3);
    for (index, text) in texts.iter_mut().enumerate().filter(|(index, _)| which == 2 || which == *index) {
        match random.below(10) {
            0 => text.resize(MOST + 1 + random.below(9) + index, b'0'),
            1 => text.clear(),
            _ => uplink::damage(random, text),
        }
    }
    ask(random, queue, &texts[0], &texts[1])
}
