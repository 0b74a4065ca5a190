//! Families of boards: runs of events, and boards that are not valid.

use crate::queue;
use crate::run::{Done, Run};
use desk_compare::cases::board::{Case, Event};
use desk_compare::make::{name, odd_byte, uplink};
use desk_compare::ours::uplink::Slot;
use desk_compare::random::Random;
use desk_compare::second::settings::MOST;

type Queue = queue::Queue<Case>;

/// Events of one case.
const NIGHT: u64 = 250;

pub fn families(run: &mut Run) {
    for (slots, events, name) in [
        (0, 10_000, "board-0"),
        (1, 30_000, "board-1"),
        (2, 30_000, "board-2"),
        (7, 30_000, "board-7"),
        (64, 20_000, "board-64"),
    ] {
        let nights = run.turns(events / NIGHT);
        run.family(
            name,
            &format!("random events on boards of {slots} slots, from empty and filled"),
            |random, queue| {
                for _ in 0..nights {
                    let board = if random.percent(50) { empty(random, slots) } else { filled(random, slots, 60, text) };
                    night(random, queue, board, NIGHT, text)?;
                }
                Ok(())
            },
        );
    }
    let nights = run.turns(4);
    run.family("board-full", &format!("events on 64 slots, all with commands of {MOST} bytes"), |random, queue| {
        for _ in 0..nights {
            let board = filled(random, 64, 100, uplink::full_text);
            night(random, queue, board, 100, |random| {
                if random.percent(50) {
                    uplink::full_text(random)
                } else {
                    text(random)
                }
            })?;
        }
        Ok(())
    });
    let turns = run.turns(4_000);
    run.family("board-invalid", "boards with one fault of every kind x check, add and take", |random, queue| {
        (0..turns).try_for_each(|_| invalid(random, queue))
    });
    run.family(
        "board-sizes",
        "0 to 70 slots x areas of every length near theirs, and of the text size before section 7",
        sizes,
    );
}

/// A board of free slots, whose designators and texts may be anything.
pub fn empty(random: &mut Random, n: usize) -> Case {
    let slots = (0..n).map(|_| Slot { designator: left_over(random), length: 0 }).collect();
    let filler = random.byte();
    Case { slots, area: vec![filler; MOST * n], list: Vec::new(), events: Vec::new() }
}

/// What a free slot may hold for a designator.
fn left_over(random: &mut Random) -> [u8; 6] {
    match random.below(3) {
        0 => [0; 6],
        1 => name(random),
        _ => std::array::from_fn(|_| random.byte()),
    }
}

/// A valid board: so many of a hundred slots are used.
pub fn filled(random: &mut Random, n: usize, used: usize, text: impl Fn(&mut Random) -> Vec<u8>) -> Case {
    let mut board = empty(random, n);
    for index in 0..n {
        if random.percent(used) {
            let text = text(random);
            board.slots[index] = Slot { designator: aircraft(index), length: text.len() as u16 };
            board.area[MOST * index..][..text.len()].copy_from_slice(&text);
        }
    }
    for index in 0..n {
        if board.slots[index].length == 0 && random.percent(30) {
            board.slots[index].designator = aircraft(random.below(n));
        }
    }
    board
}

/// Aircraft that the events speak of.
pub fn aircraft(index: usize) -> [u8; 6] {
    let name = format!("AU{index:04}");
    name.as_bytes().try_into().expect("six bytes")
}

pub fn text(random: &mut Random) -> Vec<u8> {
    match random.below(20) {
        0 => uplink::full_text(random),
        1..=3 => uplink::text(&uplink::command(random)),
        _ => uplink::text(&uplink::short_command(random)),
    }
}

/// Queues a board with events: mostly adds and takings for a fleet a little larger than the board, some for others,
/// some with wrong designators, texts and rooms.
fn night(
    random: &mut Random,
    queue: &mut Queue,
    mut board: Case,
    events: u64,
    text: impl Fn(&mut Random) -> Vec<u8>,
) -> Done {
    let fleet = board.slots.len() + 1 + board.slots.len() / 4;
    let adds = random.of(&[50, 70, 85]);
    for _ in 0..events {
        board.events.push(event(random, fleet, adds, &text));
    }
    queue.case(board)
}

fn event(random: &mut Random, fleet: usize, adds: usize, text: &impl Fn(&mut Random) -> Vec<u8>) -> Event {
    let designator = designator(random, fleet);
    if random.percent(2) {
        return Event::Check;
    }
    if random.percent(adds) {
        let mut text = text(random);
        if random.percent(10) {
            uplink::damage(random, &mut text);
        }
        return Event::Add { designator, text };
    }
    let room = match random.below(10) {
        0 => random.below(60),
        1 => random.below(MOST),
        2 => MOST + random.below(10),
        _ => MOST,
    };
    Event::Take { designator, room }
}

pub fn designator(random: &mut Random, fleet: usize) -> Vec<u8> {
    let mut designator = aircraft(random.below(fleet)).to_vec();
    match random.below(60) {
        0 => designator.truncate(random.below(6)),
        1 => designator.push(b'0'),
        2 => designator[random.below(6)] = odd_byte(random),
        _ => (),
    }
    designator
}

/// Every kind of event, on a board and on its aircraft.
fn all_events(random: &mut Random, n: usize) -> Vec<Event> {
    let text = text(random);
    let index = random.below(n.max(1));
    let adds = [aircraft(index).to_vec(), b"NEW001".to_vec(), Vec::new()];
    let mut events = vec![Event::Check];
    events.extend(adds.iter().map(|designator| Event::Add { designator: designator.clone(), text: text.clone() }));
    events.push(Event::Add { designator: adds[0].clone(), text: b"AWR04".to_vec() });
    events.extend(adds.into_iter().map(|designator| Event::Take { designator, room: MOST }));
    events.push(Event::Take { designator: aircraft(index).to_vec(), room: 0 });
    events
}

/// A valid board with one fault.
fn invalid(random: &mut Random, queue: &mut Queue) -> Done {
    let n = random.of(&[1, 2, 2, 3, 7, 64]);
    let mut board = filled(random, n, 70, text);
    let index = random.below(n);
    let text = text(random);
    if board.slots[index].length == 0 {
        board.slots[index] = Slot { designator: *b"NEW001", length: text.len() as u16 };
        board.area[MOST * index..][..text.len()].copy_from_slice(&text);
    }
    fault(random, &mut board, index);
    board.events = all_events(random, n);
    queue.case(board)
}

/// Lengths of texts that are longer than the longest.
const OVER: [u16; 6] = [MOST as u16 + 1, MOST as u16 + 2, 2 * MOST as u16, 2 * MOST as u16 + 1, 0x7fff, 0xffff];

/// The bytes of section 7, which a text area did not have before it.
const SEVEN: usize = 10;

/// One fault in a board whose slot `index` is used.
fn fault(random: &mut Random, board: &mut Case, index: usize) {
    let n = board.slots.len();
    let length = usize::from(board.slots[index].length);
    match random.below(13) {
        0 => board.slots[index].length = random.of(&OVER),
        1 => board.slots[index].length = 1 + random.below(21) as u16,
        2 => board.slots[index].length = (length as u16).wrapping_add(random.of(&[1, 0xffff])),
        3 => board.slots[index].designator[random.below(6)] = odd_byte(random),
        4 | 5 => {
            let other = random.below(n);
            board.slots[other] = board.slots[index];
            board.area.copy_within(MOST * index..MOST * index + length, MOST * other);
        }
        6 => board.area[MOST * index + random.below(length)] = odd_byte(random),
        7 => {
            let mut text = board.area[MOST * index..][..length].to_vec();
            uplink::damage(random, &mut text);
            text.truncate(MOST);
            board.slots[index].length = text.len() as u16;
            board.area[MOST * index..][..text.len()].copy_from_slice(&text);
        }
        8 => board.area.truncate(MOST * n - 1),
        9 => board.area.push(b'0'),
        10 => drop(board.slots.pop()),
        11 => board.slots.push(Slot { designator: *b"NEW002", length: 0 }),
        _ => {
            board.slots.resize(65, Slot { designator: *b"NEW002", length: 0 });
            board.area.resize(65 * MOST, 0);
        }
    }
}

fn sizes(random: &mut Random, queue: &mut Queue) -> Done {
    for n in 0..=70 {
        let length = MOST * n;
        let [less, fewer] = [1, MOST].map(|bytes| length.saturating_sub(bytes));
        for length in [0, length, length + 1, length + MOST, less, fewer, (MOST - SEVEN) * n] {
            let mut board = empty(random, n);
            board.area.resize(length, 0);
            board.events = all_events(random, n);
            queue.case(board)?;
        }
    }
    Ok(())
}
