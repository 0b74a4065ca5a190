//! Rows of the board: 64 slots, all with full commands, or three with typical ones.

use crate::linked::uplink as linked;
use crate::measure::{best, pass, Bench};
use desk_compare::make::uplink::{command_of, full_text, text, Lists};
use desk_compare::meet::uplink as meet;
use desk_compare::ours;
use desk_compare::random::Random;
use desk_compare::second::board::{add, check, take, Slot, SLOTS};
use desk_compare::second::office::{self, Grant};
use desk_compare::second::settings::MOST;
use desk_compare::second::tails::{self, Found};
use desk_compare::second::Refusal;
use std::hint::black_box;

/// Calls of a window: a board's validity is 64 texts.
const CALLS: usize = 16;

#[inline(never)]
fn second_check(slots: &[Slot], area: &[u8]) -> Result<(), Refusal> {
    check(slots, area)
}

#[inline(never)]
fn second_add(slots: &mut [Slot], area: &mut [u8], of: &[u8], text: &[u8]) -> Result<usize, Refusal> {
    add(slots, area, of, text)
}

#[inline(never)]
fn second_office(
    slots: &mut [Slot],
    area: &mut [u8],
    of: &[u8],
    text: &[u8],
    grants: [&Grant; 2],
) -> Result<usize, Refusal> {
    office::add(slots, area, of, text, grants)
}

#[inline(never)]
fn second_take(slots: &mut [Slot], area: &[u8], of: &[u8], out: &mut [u8]) -> Result<usize, Refusal> {
    take(slots, area, of, out)
}

#[inline(never)]
fn second_find(slots: &[Slot], list: &[u8], of: &[u8]) -> Result<Found, Refusal> {
    tails::find(slots, list, of)
}

#[inline(never)]
fn second_make(slots: &[Slot], list: &mut [u8]) -> Result<(), Refusal> {
    tails::make(slots, list)
}

#[inline(never)]
fn second_listed_add(slots: &mut [Slot], area: &mut [u8], list: &mut [u8], of: &[u8], text: &[u8]) -> Result<usize, Refusal> {
    tails::add(slots, area, list, of, text)
}

#[inline(never)]
fn second_listed_take(slots: &mut [Slot], area: &[u8], list: &mut [u8], of: &[u8], out: &mut [u8]) -> Result<usize, Refusal> {
    tails::take(slots, area, list, of, out)
}

#[derive(Clone)]
pub struct Board {
    slots: Vec<Slot>,
    area: Vec<u8>,
}

fn designator(index: usize) -> [u8; 6] {
    format!("AU{index:04}").as_bytes().try_into().expect("six bytes")
}

/// A board whose first slots hold the texts.
pub fn board(texts: &[Vec<u8>]) -> Board {
    let mut board = Board { slots: Vec::new(), area: vec![0; SLOTS * MOST] };
    for index in 0..SLOTS {
        let text = texts.get(index).map_or(&[][..], |text| text);
        board.slots.push(Slot { designator: designator(index), length: text.len() as u16 });
        board.area[index * MOST..][..text.len()].copy_from_slice(text);
    }
    board
}

/// Checks of the whole board.
fn checks(board: &Board, calls: usize) -> [f64; 2] {
    let slots: Vec<ours::uplink::Slot> = board.slots.iter().map(meet::slot).collect();
    let calls = vec![(); calls];
    best(
        || pass(&calls, |()| linked::board_check(black_box(&slots), black_box(&board.area))),
        || pass(&calls, |()| second_check(black_box(&board.slots), black_box(&board.area))),
    )
}

/// Adds that are joined onto what waits in the last used slot. On an empty board each goes into the first one, which is
/// then freed.
pub fn adds(board: &Board, used: usize, texts: &[Vec<u8>]) -> [f64; 2] {
    let last = used.saturating_sub(1);
    let of = designator(last);
    let (mut slots, mut area): (Vec<ours::uplink::Slot>, _) =
        (board.slots.iter().map(meet::slot).collect(), board.area.clone());
    let mut second = board.clone();
    let mut ours = |text: &Vec<u8>| {
        let answer = linked::board_add(black_box(&mut slots), black_box(&mut area), &of, text);
        if used == 0 {
            slots[last].length = 0;
        }
        answer
    };
    let mut second = |text: &Vec<u8>| {
        let answer = second_add(black_box(&mut second.slots), black_box(&mut second.area), &of, text);
        if used == 0 {
            second.slots[last].length = 0;
        }
        answer
    };
    best(|| pass(texts, &mut ours), || pass(texts, &mut second))
}

/// The same for an office that may do all, beside one that may do nothing.
pub fn office_adds(board: &Board, used: usize, texts: &[Vec<u8>]) -> [f64; 2] {
    let of = designator(used - 1);
    let (mut slots, mut area): (Vec<ours::uplink::Slot>, _) =
        (board.slots.iter().map(meet::slot).collect(), board.area.clone());
    let mut second = board.clone();
    let all = ours::uplink::Grant { flags: [1; 7], downlinks: 1, sections: [1; 8] };
    let none = ours::uplink::Grant::default();
    let meant = [all, none].map(|grant| meet::meant_grant(&grant));
    let mut ours = |text: &Vec<u8>| {
        linked::office_add(black_box(&mut slots), black_box(&mut area), &of, text, black_box([all, none]))
    };
    let mut second = |text: &Vec<u8>| {
        let [own, other] = black_box(&meant);
        second_office(black_box(&mut second.slots), black_box(&mut second.area), &of, text, [own, other])
    };
    best(|| pass(texts, &mut ours), || pass(texts, &mut second))
}

/// Takings of what waits in the last used slot; its length is put back after each. On an empty board nothing waits.
pub fn takes(board: &Board, used: usize, calls: usize) -> [f64; 2] {
    let last = used.saturating_sub(1);
    let of = designator(last);
    let length = board.slots[last].length;
    let mut slots: Vec<ours::uplink::Slot> = board.slots.iter().map(meet::slot).collect();
    let mut second = board.clone();
    let (mut out, mut other) = ([0; MOST], [0; MOST]);
    let mut ours = |_: &()| {
        let answer = linked::board_take(black_box(&mut slots), &board.area, &of, black_box(&mut out));
        slots[last].length = length;
        answer
    };
    let mut second = |_: &()| {
        let answer = second_take(black_box(&mut second.slots), &board.area, &of, black_box(&mut other));
        second.slots[last].length = length;
        answer
    };
    let calls = vec![(); calls];
    best(|| pass(&calls, &mut ours), || pass(&calls, &mut second))
}

/// Searches through the list, for each aircraft of the board in turn.
fn finds(board: &Board) -> [f64; 2] {
    let slots: Vec<ours::uplink::Slot> = board.slots.iter().map(meet::slot).collect();
    let list = tails::list(&board.slots);
    let names: Vec<_> = (0..CALLS).map(designator).collect();
    best(
        || pass(&names, |of| linked::tails_find(black_box(&slots), black_box(&list), of)),
        || pass(&names, |of| second_find(black_box(&board.slots), black_box(&list), of)),
    )
}

/// The search without a list: a taking with no room for it, which answers 2 where something waits and 11 where nothing does.
fn walks(board: &Board) -> [f64; 2] {
    let mut slots: Vec<ours::uplink::Slot> = board.slots.iter().map(meet::slot).collect();
    let mut second = board.clone();
    let names: Vec<_> = (0..CALLS).map(designator).collect();
    best(
        || pass(&names, |of| linked::board_take(black_box(&mut slots), &board.area, of, &mut [])),
        || pass(&names, |of| second_take(black_box(&mut second.slots), &board.area, of, &mut [])),
    )
}

fn makes(board: &Board) -> [f64; 2] {
    let slots: Vec<ours::uplink::Slot> = board.slots.iter().map(meet::slot).collect();
    let (mut ours, mut second) = ([0; SLOTS], [0; SLOTS]);
    let calls = vec![(); CALLS];
    best(
        || pass(&calls, |()| linked::tails_make(black_box(&slots), black_box(&mut ours))),
        || pass(&calls, |()| second_make(black_box(&board.slots), black_box(&mut second))),
    )
}

/// An adding for a new aircraft and its taking, with the list kept by both: the time of the two.
fn listed_pairs(board: &Board, texts: &[Vec<u8>]) -> [f64; 2] {
    let of = *b"ZZ0001";
    let list = tails::list(&board.slots);
    let (mut slots, mut area, mut ours_list): (Vec<ours::uplink::Slot>, _, _) =
        (board.slots.iter().map(meet::slot).collect(), board.area.clone(), list.clone());
    let (mut second, mut second_list) = (board.clone(), list);
    let (mut out, mut other) = ([0; MOST], [0; MOST]);
    let mut ours = |text: &Vec<u8>| {
        let _ = linked::tails_add(black_box(&mut slots), black_box(&mut area), &mut ours_list, &of, text);
        linked::tails_take(black_box(&mut slots), black_box(&area), &mut ours_list, &of, &mut out)
    };
    let mut second = |text: &Vec<u8>| {
        let _ = second_listed_add(black_box(&mut second.slots), black_box(&mut second.area), &mut second_list, &of, text);
        second_listed_take(black_box(&mut second.slots), black_box(&second.area), &mut second_list, &of, &mut other)
    };
    best(|| pass(texts, &mut ours), || pass(texts, &mut second))
}

/// The same two calls without a list.
fn pairs(board: &Board, texts: &[Vec<u8>]) -> [f64; 2] {
    let of = *b"ZZ0001";
    let (mut slots, mut area): (Vec<ours::uplink::Slot>, _) =
        (board.slots.iter().map(meet::slot).collect(), board.area.clone());
    let mut second = board.clone();
    let (mut out, mut other) = ([0; MOST], [0; MOST]);
    let mut ours = |text: &Vec<u8>| {
        let _ = linked::board_add(black_box(&mut slots), black_box(&mut area), &of, text);
        linked::board_take(black_box(&mut slots), black_box(&area), &of, &mut out)
    };
    let mut second = |text: &Vec<u8>| {
        let _ = second_add(black_box(&mut second.slots), black_box(&mut second.area), &of, text);
        second_take(black_box(&mut second.slots), black_box(&second.area), &of, &mut other)
    };
    best(|| pass(texts, &mut ours), || pass(texts, &mut second))
}

pub fn rows(bench: &Bench) {
    let mut random = Random::new(1, "bench-board");
    let full: Vec<_> = (0..SLOTS).map(|_| full_text(&mut random)).collect();
    let mut typical = || text(&command_of(&mut random, 0x9d, Lists::Few));
    let few: Vec<_> = (0..3).map(|_| typical()).collect();
    let added: Vec<_> = (0..CALLS).map(|_| typical()).collect();
    let (all, three) = (board(&full), board(&few));
    bench.row("board check, 64 full slots", CALLS, None, || checks(&all, CALLS));
    bench.row("board add, 64 full slots", CALLS, None, || adds(&all, SLOTS, &full[..CALLS]));
    bench.row("board take, 64 full slots", CALLS, None, || takes(&all, SLOTS, CALLS));
    bench.row("board check, 64 slots, 3 used", CALLS, None, || checks(&three, CALLS));
    bench.row("board add, 64 slots, 3 used", CALLS, None, || adds(&three, 3, &added));
    bench.row("office add, 64 slots, 3 used", CALLS, None, || office_adds(&three, 3, &added));
    bench.row("board take, 64 slots, 3 used", CALLS, None, || takes(&three, 3, CALLS));
    let short: Vec<_> = (0..SLOTS).map(|_| text(&command_of(&mut random, 0, Lists::Few))).collect();
    let used = board(&short);
    bench.row("search by the list, 3 used", CALLS, None, || finds(&three));
    bench.row("search by the walk, 3 used", CALLS, None, || walks(&three));
    bench.row("search by the list, 64 used", CALLS, None, || finds(&used));
    bench.row("search by the walk, 64 used", CALLS, None, || walks(&used));
    bench.row("list made, 64 used", CALLS, None, || makes(&used));
    bench.row("add and take with the list, 3 used", CALLS, None, || listed_pairs(&three, &added));
    bench.row("add and take without, 3 used", CALLS, None, || pairs(&three, &added));
}
