//! Families of joins.

use crate::queue;
use crate::run::{Done, Run};
use desk_compare::cases::join::Case;
use desk_compare::cases::Case as _;
use desk_compare::figures::{JOIN, NO_CHANGE};
use desk_compare::make::uplink::{self, Lists};
use desk_compare::random::Random;
use desk_compare::second::settings::MOST;
use desk_compare::second::{config, join};

type Queue = queue::Queue<Case>;

pub fn families(run: &mut Run) {
    run.family("join-printed", "document 01's printed join, every room", |_, queue| {
        let [first, second, both] = JOIN;
        same("document 01's printed join", &joined(first, second), both, first, second)?;
        rooms(queue, first, second)
    });
    run.family("join-rooms", "pairs of 8 commands x every room up to the joined length and beyond", |random, queue| {
        let shapes = shapes(random);
        for (index, first) in shapes.iter().enumerate() {
            rooms(queue, first, &shapes[(index + 1) % shapes.len()])?;
            rooms(queue, first, &shapes[(index + 3) % shapes.len()])?;
        }
        Ok(())
    });
    run.family("join-sections", "every choice of named sections with every other", |random, queue| {
        let mut texts =
            |lists| -> Vec<_> { (0..256).map(|bits| uplink::text(&uplink::command_of(random, bits, lists))).collect() };
        let [one, other] = [texts(Lists::Few), texts(Lists::Few)];
        one.iter().try_for_each(|first| other.iter().try_for_each(|second| join(queue, first, second, MOST)))
    });
    let turns = run.turns(60_000);
    run.family("join-random", "random pairs, rooms round the joined length", |random, queue| {
        for _ in 0..turns {
            let [first, second] = [text(random), text(random)];
            let length = joined(&first, &second).len();
            join(queue, &first, &second, random.of(&[length - 1, length, length, length + 1, MOST, MOST]))?;
        }
        Ok(())
    });
    let turns = run.turns(25_000);
    run.family(
        "join-triples",
        "three grouped both ways, the no-change command on both sides, and applied",
        |random, queue| (0..turns).try_for_each(|_| triple(random, queue)),
    );
    let turns = run.turns(60_000);
    run.family("join-damaged", "random pairs, one or both damaged or too long", damaged(turns));
}

fn join(queue: &mut Queue, first: &[u8], second: &[u8], room: usize) -> Done {
    queue.case(Case { first: first.to_vec(), second: second.to_vec(), room })
}

/// The second program's join of two accepted texts.
fn joined(first: &[u8], second: &[u8]) -> Vec<u8> {
    let mut out = vec![0; MOST];
    let length = join::join(first, second, &mut out).expect("accepted texts join within the longest command's bytes");
    out.truncate(length);
    out
}

/// Two of the second program's texts that a law has equal.
fn same(law: &'static str, one: &[u8], other: &[u8], first: &[u8], second: &[u8]) -> Done {
    if one == other {
        return Ok(());
    }
    let case = Case { first: first.to_vec(), second: second.to_vec(), room: MOST };
    case.mismatch(law, one.escape_ascii().to_string(), other.escape_ascii().to_string())
}

fn text(random: &mut Random) -> Vec<u8> {
    if random.percent(10) {
        return uplink::full_text(random);
    }
    uplink::text(&uplink::command(random))
}

fn shapes(random: &mut Random) -> Vec<Vec<u8>> {
    let mut shape = |bits, lists| uplink::text(&uplink::command_of(random, bits, lists));
    let mut shapes = vec![NO_CHANGE.to_vec(), shape(0xff, Lists::Full), shape(0xff, Lists::Empty)];
    shapes.extend([shape(0x01, Lists::Full), shape(0x02, Lists::Full), shape(0xfc, Lists::Empty)]);
    shapes.extend([shape(0x55, Lists::Few), shape(0xff, Lists::Full)]);
    shapes
}

fn rooms(queue: &mut Queue, first: &[u8], second: &[u8]) -> Done {
    let length = joined(first, second).len();
    (0..=length + 3).try_for_each(|room| join(queue, first, second, room))
}

/// The laws hold of the second program's joins, and each join on the way is asked of the proved one.
fn triple(random: &mut Random, queue: &mut Queue) -> Done {
    let [a, b, c] = [text(random), text(random), text(random)];
    let [ab, bc] = [joined(&a, &b), joined(&b, &c)];
    same("grouping never alters a byte", &joined(&ab, &c), &joined(&a, &bc), &ab, &c)?;
    same("no change behind", &joined(&a, NO_CHANGE), &a, &a, NO_CHANGE)?;
    same("no change in front", &joined(NO_CHANGE, &a), &a, NO_CHANGE, &a)?;
    applied(random, &a, &b)?;
    let pairs: [[&[u8]; 2]; 6] = [[&a, &b], [&b, &c], [&ab, &c], [&a, &bc], [&a, NO_CHANGE], [NO_CHANGE, &a]];
    pairs.iter().try_for_each(|[first, second]| join(queue, first, second, MOST))
}

/// The join acts on a valid configuration as the first and then the second.
fn applied(random: &mut Random, first: &[u8], second: &[u8]) -> Done {
    let held = uplink::configuration(random);
    let (mut one, mut other) = (held, held);
    let downlinks = [config::apply(&mut one, first), config::apply(&mut one, second)];
    let downlink = config::apply(&mut other, &joined(first, second));
    if one == other && downlinks.map(Result::ok).into_iter().max() == Some(downlink.ok()) {
        return Ok(());
    }
    let case = Case { first: first.to_vec(), second: second.to_vec(), room: MOST };
    case.mismatch("applied as one and one after the other", format!("{one:?}"), format!("{other:?}"))
}

fn damaged(turns: u64) -> impl FnOnce(&mut Random, &mut Queue) -> Done {
    move |random, queue| {
        for _ in 0..turns {
            let mut texts = [text(random), text(random)];
            let which = random.below(3);
            for (index, text) in texts.iter_mut().enumerate().filter(|(index, _)| which == 2 || which == *index) {
                match random.below(10) {
                    0 => text.resize(MOST + 1 + random.below(9) + index, b'0'),
                    1 => text.clear(),
                    _ => uplink::damage(random, text),
                }
            }
            let room = random.of(&[0, 22, 100, MOST, MOST]);
            join(queue, &texts[0], &texts[1], room)?;
        }
        Ok(())
    }
}
