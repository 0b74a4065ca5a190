//! Seeds of journals.

use super::uplink::command_text;
use desk_compare::figures::NO_CHANGE;
use desk_compare::make::journal::{aircraft, journal, short, taken, text_of, Journal, ROUND};
use desk_compare::random::Random;
use desk_compare::second::journal::print;

/// How the journals stand in their buffers: so many bytes behind them, beyond them, or near 65,535.
const STANDS: [u8; 12] = [0, 31, 250, 100, 0, 251, 252, 253, 254, 255, 40, 250];

/// None, the printed one, and others; the last two have a fault: a wrong letter in the newest trailer, a designator
/// that is none in an older entry. The one of 63 bytes leaves room for exactly one entry of 31 near 65,535.
fn bytes(random: &mut Random, index: usize) -> Vec<u8> {
    let mut of = match index {
        0 | 1 | 9 => Journal::default(),
        2..=5 => journal(random, index, 2, short),
        6 => journal(random, 4, 3, taken),
        _ => journal(random, 3, 2, short),
    };
    match index {
        1 => of.push(b"XY0001", NO_CHANGE),
        9 => of.push(&aircraft(0), &text_of(random, 63 - ROUND)),
        10 => *of.bytes.last_mut().expect("entries") = b'K',
        11 => of.bytes[of.starts[1]] = b'a',
        _ => (),
    }
    of.bytes
}

/// How it stands, then its bytes.
pub fn whole(random: &mut Random, index: usize) -> Vec<u8> {
    [vec![STANDS[index]], bytes(random, index)].concat()
}

/// Length of the designator, designator, length of the text, text, journal.
pub fn add(random: &mut Random, index: usize) -> Vec<u8> {
    let text = if index % 3 == 2 { command_text(random, index) } else { NO_CHANGE.to_vec() };
    [&[6], &aircraft(index % 3)[..], &(text.len() as u16).to_le_bytes(), &text, &whole(random, index)].concat()
}

/// Count, journal.
pub fn dropped(random: &mut Random, index: usize) -> Vec<u8> {
    let count = if index == 3 { u16::MAX } else { index as u16 / 2 };
    [&count.to_le_bytes()[..], &whole(random, index)].concat()
}

/// Room, journal; the room is that of the print where the journal stands alone, or one less.
pub fn printed(random: &mut Random, index: usize) -> Vec<u8> {
    let whole = whole(random, index);
    let mut out = vec![0; 100_000];
    let room = print(&whole[1..], whole.len() - 1, &mut out).map_or(out.len(), |length| length.max(1) - index % 2);
    let room = if STANDS[index] > 252 { out.len() } else { room };
    [&(room as u32).to_le_bytes()[..], &whole].concat()
}

/// Length of the designator, designator, journal.
pub fn replay(random: &mut Random, index: usize) -> Vec<u8> {
    [&[6], &aircraft(index % 3)[..], &whole(random, index)].concat()
}
