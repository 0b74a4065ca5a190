//! Seeds of commands, configurations, decisions, joins and boards.

use desk_compare::figures::{JOIN, NO_CHANGE};
use desk_compare::make::uplink::{airfield, command_of, configuration_of, short_command, text, Lists};
use desk_compare::meet::uplink as meet;
use desk_compare::ours::uplink::Slot;
use desk_compare::ours::{bytes_of, of_bytes};
use desk_compare::random::Random;
use desk_compare::second::config;
use desk_compare::second::settings::{Command, MOST};

fn short(number: usize) -> [u8; 2] {
    (number as u16).to_le_bytes()
}

/// Each section alone, then short commands, then every section with few and with many entries.
fn command(random: &mut Random, index: usize) -> Command {
    match index {
        0..=7 => command_of(random, 1 << index, Lists::Few),
        8 | 9 => short_command(random),
        10 => command_of(random, 0xff, Lists::Few),
        _ => command_of(random, 0xff, Lists::Full),
    }
}

pub fn command_text(random: &mut Random, index: usize) -> Vec<u8> {
    match index {
        9 => NO_CHANGE.to_vec(),
        _ => text(&command(random, index)),
    }
}

/// Room, record; one has a spare byte that is not 0.
pub fn command_write(random: &mut Random, index: usize) -> Vec<u8> {
    let command = Command { spare: u8::from(index == 9), ..command(random, index) };
    [&short(MOST)[..], bytes_of(&meet::command(&command))].concat()
}

/// Number, text: each section of a text that names it, and the last of a short and a long one.
pub fn section(random: &mut Random, index: usize) -> Vec<u8> {
    let number = if index < 8 { index as u8 + 2 } else { 9 };
    [vec![number], command_text(random, index)].concat()
}

pub fn settings(random: &mut Random, index: usize) -> Vec<u8> {
    let held = match index % 3 {
        0 => config::reset(),
        1 => configuration_of(random, Lists::Few),
        _ => configuration_of(random, Lists::Full),
    };
    bytes_of(&meet::configuration(&held)).to_vec()
}

/// Configuration, text.
pub fn apply(random: &mut Random, index: usize) -> Vec<u8> {
    [settings(random, index), command_text(random, index)].concat()
}

/// Room, both configurations: the same, one that a command made of the other, and any two.
pub fn difference(random: &mut Random, index: usize) -> Vec<u8> {
    let first = settings(random, index);
    let mut second = first.clone();
    if index < 9 {
        let mut held = meet::meant_settings(&of_bytes(&second));
        config::apply(&mut held, &command_text(random, index)).expect("a valid configuration and an accepted text");
        second = bytes_of(&meet::configuration(&held)).to_vec();
    } else if index < 11 {
        second = settings(random, index + 1);
    }
    [&short(MOST)[..], &first, &second].concat()
}

/// Configuration, phase, hour, latitude, longitude, airfield.
pub fn decide(random: &mut Random, index: usize) -> Vec<u8> {
    let place = [random.between(-5400, 5400), random.between(-10_800, 10_800)].map(i32::to_le_bytes).concat();
    let when = vec![index as u8 % 3, random.below(24) as u8];
    [settings(random, index), when, place, airfield(random).to_vec()].concat()
}

/// Room, length of the first text, both texts; the printed join is one.
pub fn join(random: &mut Random, index: usize) -> Vec<u8> {
    let [first, second] = match index {
        0 => [JOIN[0].to_vec(), JOIN[1].to_vec()],
        _ => [command_text(random, index), command_text(random, 11 - index)],
    };
    [&short(MOST)[..], &short(first.len()), &first, &second].concat()
}

/// Length of the first text, both texts: those of a join, and a text beside itself.
pub fn commute(random: &mut Random, index: usize) -> Vec<u8> {
    let [first, second] = match index {
        0 => [JOIN[0].to_vec(), JOIN[1].to_vec()],
        1..=8 => [command_text(random, index), command_text(random, 11 - index)],
        _ => {
            let text = command_text(random, index);
            [text.clone(), text]
        }
    };
    [&short(first.len())[..], &first, &second].concat()
}

fn designator(index: usize) -> [u8; 6] {
    format!("AU{index:04}").as_bytes().try_into().expect("six bytes")
}

/// The number of slots, what the area has more or less, then slots and their texts: boards of 0 to 11 slots, one in three
/// of them free.
pub fn board(random: &mut Random, index: usize) -> Vec<u8> {
    let mut board = vec![index as u8, 0];
    for slot in 0..index {
        let waits = if slot % 3 == 2 { Vec::new() } else { text(&short_command(random)) };
        board.extend(bytes_of(&Slot { designator: designator(slot), length: waits.len() as u16 }));
        board.extend(waits);
    }
    board
}

/// Length of the designator, designator, board, text; for an aircraft with something waiting, or none.
pub fn board_add(random: &mut Random, index: usize) -> Vec<u8> {
    let of = designator(random.below(index + 1));
    [&[6], &of[..], &board(random, index), &command_text(random, index)].concat()
}

/// The office's grant, the other's, and then as for board_add; every third pair overlaps.
pub fn office_add(random: &mut Random, index: usize) -> Vec<u8> {
    let own: Vec<u8> = (0..16).map(|_| random.of(&[0, 1, 1, 255])).collect();
    let other: Vec<u8> = own.iter().map(|&byte| u8::from(byte == 0 || index % 3 == 2)).collect();
    [own, other, board_add(random, index)].concat()
}

/// A board as above, and its list, which every fourth time has a byte that is another.
fn listed(random: &mut Random, index: usize) -> Vec<u8> {
    let mut list: Vec<u8> = (0..index as u8).filter(|slot| slot % 3 != 2).collect();
    list.resize(index, 255);
    if index % 4 == 3 {
        list[random.below(index)] = random.byte();
    }
    [&board(random, index), &[0][..], &list].concat()
}

pub fn tails_make(random: &mut Random, index: usize) -> Vec<u8> {
    listed(random, index)
}

pub fn tails_find(random: &mut Random, index: usize) -> Vec<u8> {
    let of = designator(random.below(index + 1));
    [&[6], &of[..], &listed(random, index)].concat()
}

pub fn tails_add(random: &mut Random, index: usize) -> Vec<u8> {
    [tails_find(random, index), command_text(random, index)].concat()
}

pub fn tails_take(random: &mut Random, index: usize) -> Vec<u8> {
    let of = designator(random.below(index + 1));
    [&[6], &of[..], &short(MOST), &listed(random, index)].concat()
}

/// Length of the designator, designator, room, board.
pub fn board_take(random: &mut Random, index: usize) -> Vec<u8> {
    let of = designator(random.below(index + 1));
    [&[6], &of[..], &short(MOST), &board(random, index)].concat()
}
