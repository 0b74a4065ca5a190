//! Families of journals: sound ones, small ones with every byte and every length made another, and those at the limits.

use crate::queue;
use crate::run::{Done, Run};
use desk_compare::cases::journal::{Call, Case, Event};
use desk_compare::figures::NO_CHANGE;
use desk_compare::make::journal::{aircraft, filled, journal, short, taken, text_of, Journal, ROUND};
use desk_compare::make::{odd_byte, uplink};
use desk_compare::random::Random;
use desk_compare::second::journal::{add, print, BYTES};

type Queue = queue::Queue<Case>;

/// Ends that no buffer here has.
const BEYOND: [usize; 8] = [BYTES, BYTES + 1, 1 << 17, 1 << 31, 1 << 32, usize::MAX / 2, usize::MAX - 8, usize::MAX];

pub fn families(run: &mut Run) {
    run.family("journal-printed", "document 02's one entry: every end, every room, every count up to 3", |_, queue| {
        let mut one = Journal::default();
        one.push(b"XY0001", NO_CHANGE);
        let mut case = Case { buffer: one.bytes.clone(), events: Vec::new() };
        ends(&mut case, b"XY0001", 4);
        (0..=40).for_each(|room| case.ask(31, Call::Print { room }));
        (0..=3).for_each(|count| case.ask(31, Call::Drop { count }));
        queue.case(case)
    });
    let turns = run.turns(9);
    run.family("journal-bytes", "small journals, every byte made every other, every call", |random, queue| {
        (0..turns).try_for_each(|_| bytes(random, queue))
    });
    run.family(
        "journal-lengths",
        "every length in the newest trailer, long and short entries before it",
        |random, queue| {
            lengths(&journal(random, 2, 2, short).bytes, queue)?;
            lengths(&journal(random, 3, 2, uplink::full_text).bytes, queue)
        },
    );
    let turns = run.turns(350);
    run.family("journal-ends", "every length of a journal and beyond its buffer, every call", |random, queue| {
        for _ in 0..turns {
            let entries = random.below(9);
            let mut case = Case { buffer: journal(random, entries, 3, taken).bytes, events: Vec::new() };
            case.buffer.truncate(random.of(&[400, 700, 1200]));
            ends(&mut case, &aircraft(random.below(4)), 1 + random.below(3));
            queue.case(case)?;
        }
        Ok(())
    });
    let turns = run.turns(900);
    run.family("journal-drop", "every count dropped, and what is left replayed for each aircraft", |random, queue| {
        (0..turns).try_for_each(|_| dropped(random, queue))
    });
    let turns = run.turns(1_200);
    run.family("journal-nights", "journals grown by adds, some of them wrong, read on the way", |random, queue| {
        (0..turns).try_for_each(|_| night(random, queue))
    });
    let turns = run.turns(12_000);
    run.family("journal-rooms", "adds and prints into rooms round the exact one", |random, queue| {
        (0..turns).try_for_each(|_| rooms(random, queue))
    });
    let turns = run.turns(60_000);
    run.family("journal-damaged", "journals with a fault of every kind, every call", |random, queue| {
        (0..turns).try_for_each(|_| damaged(random, queue))
    });
    let turns = run.turns(24);
    run.family(
        "journal-limit",
        "adds that reach 65,535 bytes and pass it, in buffers round that length",
        |random, queue| (0..turns).try_for_each(|_| limit(random, queue)),
    );
    let turns = run.turns(10);
    run.family("journal-full", "journals of 65,535 bytes: every call, and one fault somewhere", |random, queue| {
        (0..turns).try_for_each(|_| full(random, queue))
    });
}

trait Asks {
    fn ask(&mut self, end: usize, call: Call);
    fn put(&mut self, at: usize, byte: u8);
}

impl Asks for Case {
    fn ask(&mut self, end: usize, call: Call) {
        self.events.push(Event::Ask { end, call });
    }

    fn put(&mut self, at: usize, byte: u8) {
        self.events.push(Event::Put { at, byte });
    }
}

/// A case of a journal in a buffer of its own length.
fn held(of: &Journal) -> Case {
    Case { buffer: of.bytes.clone(), events: Vec::new() }
}

/// Every call that leaves the buffer as it is.
fn reads(case: &mut Case, end: usize, of: &[u8], count: usize, room: usize) {
    case.ask(end, Call::Check);
    case.ask(end, Call::Last);
    case.ask(end, Call::Drop { count });
    case.ask(end, Call::Print { room });
    case.ask(end, Call::Replay { designator: of.to_vec() });
}

/// Every end up to two behind the buffer, and far beyond; the adds have no room.
fn ends(case: &mut Case, of: &[u8], count: usize) {
    let length = case.buffer.len();
    for end in (0..=length + 2).chain(BEYOND) {
        reads(case, end, of, count, 2 * length + 40);
        if end.saturating_add(NO_CHANGE.len() + ROUND) > length {
            case.ask(end, Call::Add { designator: of.to_vec(), text: NO_CHANGE.to_vec() });
        }
    }
}

/// How many bytes the print of a sound journal has.
fn printed(bytes: &[u8]) -> usize {
    let mut out = vec![0; 2 * bytes.len() + 40];
    print(bytes, bytes.len(), &mut out).expect("a sound journal is printed")
}

fn bytes(random: &mut Random, queue: &mut Queue) -> Done {
    let small = |random: &mut Random| if random.percent(50) { NO_CHANGE.to_vec() } else { short(random) };
    let entries = 2 + random.below(2);
    let of = journal(random, entries, 2, small);
    let (end, room) = (of.bytes.len(), printed(&of.bytes));
    for at in 0..end.min(160) {
        let mut case = held(&of);
        for byte in 0..=255 {
            case.put(at, byte);
            reads(&mut case, end, &aircraft(at % 2), at % 3, room);
        }
        queue.case(case)?;
    }
    Ok(())
}

fn lengths(bytes: &[u8], queue: &mut Queue) -> Done {
    let end = bytes.len();
    for high in 0..=255 {
        let mut case = Case { buffer: bytes.to_vec(), events: Vec::new() };
        case.put(end - 3, high);
        for low in 0..=255 {
            case.put(end - 2, low);
            case.ask(end, Call::Check);
            case.ask(end, Call::Last);
        }
        queue.case(case)?;
    }
    Ok(())
}

fn dropped(random: &mut Random, queue: &mut Queue) -> Done {
    let entries = random.below(24);
    let of = journal(random, entries, 3, taken);
    let mut case = held(&of);
    let end = of.bytes.len();
    for count in (0..=entries + 2).chain([usize::MAX]) {
        case.ask(end, Call::Drop { count });
        let Some(left) = entries.checked_sub(count).map(|kept| of.starts.get(kept).copied().unwrap_or(end)) else {
            continue;
        };
        case.ask(left, Call::Check);
        case.ask(left, Call::Last);
        case.ask(left, Call::Drop { count: 1 });
        (0..4).for_each(|index| case.ask(left, Call::Replay { designator: aircraft(index).to_vec() }));
    }
    queue.case(case)
}

/// A designator of the fleet, one of no aircraft, or one that is none.
fn designator(random: &mut Random, fleet: usize) -> Vec<u8> {
    let mut designator = aircraft(random.below(fleet + 1)).to_vec();
    match random.below(24) {
        0 => designator.truncate(random.below(6)),
        1 => designator.push(b'0'),
        2 => designator[random.below(6)] = odd_byte(random),
        _ => (),
    }
    designator
}

/// Adds that go one behind the other; where one is refused the next goes to the same place.
fn night(random: &mut Random, queue: &mut Queue) -> Done {
    let fleet = 1 + random.below(6);
    let filler = random.byte();
    let mut case = Case { buffer: vec![filler; random.of(&[300, 900, 2_000, 5_000])], events: Vec::new() };
    let mut grown = case.buffer.clone();
    let mut end = 0;
    for _ in 0..10 + random.below(30) {
        let (designator, mut text) = (designator(random, fleet), taken(random));
        if random.percent(10) {
            uplink::damage(random, &mut text);
        }
        case.ask(end, Call::Add { designator: designator.clone(), text: text.clone() });
        end = add(&mut grown, end, &designator, &text).unwrap_or(end);
        if random.percent(30) {
            reads(&mut case, end, &designator, random.below(4), random.of(&[0, 100, 2 * end + 40]));
        }
    }
    let room = printed(&grown[..end]);
    (0..=fleet).for_each(|index| case.ask(end, Call::Replay { designator: aircraft(index).to_vec() }));
    [room.saturating_sub(1), room, room + 1].into_iter().for_each(|room| case.ask(end, Call::Print { room }));
    queue.case(case)
}

fn rooms(random: &mut Random, queue: &mut Queue) -> Done {
    let entries = random.below(6);
    let text = if random.percent(10) { taken } else { short };
    let of = journal(random, entries, 3, text);
    let (end, text) = (of.bytes.len(), taken(random));
    let needed = end + text.len() + ROUND;
    let room = printed(&of.bytes);
    for (more, out) in [(-1, -1), (0, 0), (1, 1), (-9, -2), (8, 40)] {
        let mut case = held(&of);
        case.buffer.resize(needed.saturating_add_signed(more), b'J');
        case.ask(end, Call::Print { room: room.saturating_add_signed(out) });
        case.ask(end, Call::Add { designator: aircraft(0).to_vec(), text: text.clone() });
        case.ask(needed, Call::Check);
        case.ask(needed, Call::Last);
        case.ask(needed, Call::Replay { designator: aircraft(0).to_vec() });
        queue.case(case)?;
    }
    Ok(())
}

fn damaged(random: &mut Random, queue: &mut Queue) -> Done {
    let entries = 1 + random.below(6);
    let text = if random.percent(10) { taken } else { short };
    let mut of = journal(random, entries, 3, text);
    let start = random.of(&of.starts);
    let next = of.starts.iter().copied().find(|at| *at > start).unwrap_or(of.bytes.len());
    let bytes = &mut of.bytes;
    match random.below(12) {
        0 => bytes[start + random.below(6)] = odd_byte(random),
        1 => bytes[next - 1] = random.of(b"jKI\0\xca0"),
        2 => bytes[next - 2] = bytes[next - 2].wrapping_add(random.of(&[1, 255, 2, 6, 9, 128])),
        3 => bytes[next - 3] = bytes[next - 3].wrapping_add(random.of(&[1, 255, 3, 128])),
        4 => bytes.swap(next - 3, next - 2),
        5 => drop(bytes.remove(random.below(bytes.len()))),
        6 => bytes.insert(random.below(bytes.len() + 1), odd_byte(random)),
        7 => drop(bytes.drain(start..start + 1 + random.below(next - start))),
        8 => {
            let mut text = bytes[start + 6..next - 3].to_vec();
            uplink::damage(random, &mut text);
            let trailer = (text.len() as u16).to_be_bytes();
            bytes.splice(start + 6..next - 1, [&text[..], &trailer].concat());
        }
        9 => bytes.truncate(random.below(bytes.len())),
        10 => bytes[start + 6 + random.below(next - start - 9)] = odd_byte(random),
        _ => bytes.extend(random.of(&[&b"J"[..], b"\0J", b"\0\0J", b"\0\x16J", b"XY0001", b"XY0001\0\0J"])),
    }
    let mut case = held(&of);
    let end = of.bytes.len();
    case.buffer.resize(end + 50, b'J');
    reads(&mut case, end, &designator(random, 3), random.below(entries + 2), random.of(&[0, 2 * end + 40]));
    case.ask(end, Call::Add { designator: designator(random, 3), text: NO_CHANGE.to_vec() });
    queue.case(case)
}

fn limit(random: &mut Random, queue: &mut Queue) -> Done {
    let length = 36 + random.below(280);
    let text = text_of(random, length);
    let under = random.of(&[0_usize, 0, 1, 2, 30]);
    let of = filled(random, BYTES - length - ROUND - under, 4, taken);
    let end = of.bytes.len();
    for room in [BYTES - 1, BYTES, BYTES + 1, BYTES + 300] {
        let mut case = held(&of);
        case.buffer.resize(room, b'J');
        let longer = text_of(random, length + under + 1);
        for text in [&longer, &text] {
            case.ask(end, Call::Add { designator: aircraft(1).to_vec(), text: text.clone() });
        }
        for end in [BYTES - under, BYTES, BYTES + 1, room, room + 1] {
            case.ask(end, Call::Check);
            case.ask(end, Call::Last);
        }
        case.ask(BYTES - under, Call::Add { designator: aircraft(1).to_vec(), text: NO_CHANGE.to_vec() });
        queue.case(case)?;
    }
    Ok(())
}

fn full(random: &mut Random, queue: &mut Queue) -> Done {
    let least = |_: &mut Random| NO_CHANGE.to_vec();
    let text = random.of(&[taken, short, least, uplink::full_text]);
    let of = filled(random, BYTES, 4, text);
    let (entries, room) = (of.starts.len(), printed(&of.bytes));
    let mut case = held(&of);
    for index in 0..5 {
        case.ask(BYTES, Call::Replay { designator: aircraft(index).to_vec() });
    }
    for count in [0, 1, 2, entries / 2, entries - 1, entries, entries + 1] {
        case.ask(BYTES, Call::Drop { count });
    }
    [room - 1, room].into_iter().for_each(|room| case.ask(BYTES, Call::Print { room }));
    case.ask(BYTES, Call::Add { designator: aircraft(0).to_vec(), text: NO_CHANGE.to_vec() });
    for _ in 0..20 {
        let at = random.below(BYTES);
        case.put(at, odd_byte(random));
        reads(&mut case, BYTES, &aircraft(1), entries / 2, room);
        case.put(at, of.bytes[at]);
    }
    queue.case(case)
}
