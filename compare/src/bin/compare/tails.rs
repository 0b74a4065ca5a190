//! Families of boards with a list of their used slots beside them.

use crate::boards::{aircraft, designator, empty, filled, text};
use crate::queue::Queue;
use crate::run::Run;
use desk_compare::cases::board::{Case, Event};
use desk_compare::make::{name, uplink};
use desk_compare::meet::uplink::meant_slot;
use desk_compare::random::Random;
use desk_compare::second::settings::MOST;
use desk_compare::second::tails::list;

/// Events of one night.
const NIGHT: usize = 250;

pub fn families(run: &mut Run) {
    for (slots, events, name) in [(2, 20_000, "tails-2"), (7, 40_000, "tails-7"), (64, 40_000, "tails-64")] {
        let nights = run.turns(events / NIGHT as u64);
        run.family(
            name,
            &format!(
                "long nights on boards of {slots} slots with their list: adds, takings, searches, the list made anew"
            ),
            |random, queue| {
                for _ in 0..nights {
                    let board = if random.percent(50) { empty(random, slots) } else { filled(random, slots, 60, text) };
                    let mut board = with_list(board);
                    board.events = (0..NIGHT).map(|_| event(random, slots + 1 + slots / 4)).collect();
                    queue.case(board)?;
                }
                Ok(())
            },
        );
    }
    let turns = run.turns(30_000);
    run.family(
        "tails-wrong",
        "lists with an entry wrong, missing, doubled, out of order, of a free slot, or of another length x every call",
        |random, queue: &mut Queue<Case>| {
            (0..turns).try_for_each(|_| {
                let n = random.of(&[1, 2, 3, 7, 64, 65]);
                let mut board = with_list(filled(random, n, 70, text));
                spoil(random, &mut board);
                board.events = vec![
                    Event::Find { designator: designator(random, n) },
                    Event::ListedTake { designator: designator(random, n), room: MOST },
                    Event::ListedAdd { designator: designator(random, n), text: text(random) },
                    Event::Make,
                    Event::Find { designator: designator(random, n) },
                ];
                queue.case(board)
            })
        },
    );
    let turns = run.turns(20_000);
    run.family(
        "tails-invalid",
        "boards that are not valid, and their lists: designators twice or wrong, texts that are not accepted, wrong areas",
        |random, queue: &mut Queue<Case>| {
            (0..turns).try_for_each(|_| {
                let n = random.of(&[2, 3, 7]);
                let mut board = filled(random, n, 80, text);
                let index = random.below(n);
                match random.below(4) {
                    0 => board.slots[index].designator = board.slots[(index + 1) % n].designator,
                    1 => board.slots[index].designator[random.below(6)] = random.byte(),
                    2 => board.slots[index].length = random.of(&[1, 21, MOST as u16, MOST as u16 + 1, u16::MAX]),
                    _ => drop(board.area.pop()),
                }
                let mut board = with_list(board);
                board.events = vec![
                    Event::Find { designator: board.slots[random.below(n)].designator.to_vec() },
                    Event::Find { designator: designator(random, n) },
                    Event::ListedAdd { designator: designator(random, n), text: text(random) },
                    Event::ListedTake { designator: designator(random, n), room: MOST },
                    Event::Make,
                ];
                queue.case(board)
            })
        },
    );
    run.family(
        "tails-small",
        "every list of bytes 0 to 3 and 255 beside boards of 3 slots, each used or free",
        |random, queue| {
            for used in 0..8u32 {
                for lists in 0..125 {
                    let mut board = empty(random, 3);
                    for index in (0..3).filter(|index| used >> index & 1 == 1) {
                        let text = uplink::text(&uplink::short_command(random));
                        board.slots[index].designator = [*b"XY0002", *b"XY0003", *b"XY0001"][index];
                        board.slots[index].length = text.len() as u16;
                        board.area[MOST * index..][..text.len()].copy_from_slice(&text);
                    }
                    board.list =
                        [lists % 5, lists / 5 % 5, lists / 25].iter().map(|&byte| [0, 1, 2, 3, 255][byte]).collect();
                    board.events = [*b"XY0001", *b"XY0002", *b"XY0003", *b"XY0004"]
                        .iter()
                        .flat_map(|of| {
                            let designator = of.to_vec();
                            [
                                Event::Find { designator: designator.clone() },
                                Event::ListedTake { designator, room: MOST },
                            ]
                        })
                        .collect();
                    queue.case(board)?;
                }
            }
            Ok(())
        },
    );
}

/// A board with its list.
fn with_list(mut board: Case) -> Case {
    let slots: Vec<_> = board.slots.iter().map(meant_slot).collect();
    board.list = list(&slots);
    board
}

fn event(random: &mut Random, fleet: usize) -> Event {
    let designator = if random.percent(5) { name::<6>(random).to_vec() } else { designator(random, fleet) };
    match random.below(100) {
        0 => Event::Make,
        1..=30 => Event::Find { designator },
        31..=75 => {
            let mut text = text(random);
            if random.percent(8) {
                uplink::damage(random, &mut text);
            }
            Event::ListedAdd { designator, text }
        }
        _ => Event::ListedTake { designator, room: random.of(&[0, 30, MOST, MOST, MOST]) },
    }
}

/// One fault in the list.
fn spoil(random: &mut Random, board: &mut Case) {
    let n = board.list.len();
    let [one, other] = [random.below(n), random.below(n)];
    match random.below(8) {
        0 => board.list[one] = random.byte(),
        1 => drop(board.list.remove(one)),
        2 => board.list.push(255),
        3 => board.list[one] = board.list[other],
        4 => board.list.swap(one, other),
        5 => board.list[one] = 255,
        6 => board.slots[one].designator = aircraft(random.below(2 * n)),
        _ => board.slots[one].length = if board.slots[one].length == 0 { 22 } else { 0 },
    }
}
