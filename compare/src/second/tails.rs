//! Document 02, §9: "a list of used slots in rising order of designator" beside the board, as many bytes as it has slots, 255
//! behind the used ones.

use super::board::{self, Slot, SLOTS};
use super::{refuse, Refusal, BOARD, NOTHING};

/// What stands behind the used slots' numbers.
const NONE: u8 = 255;

/// "The list names each used slot once and no other."
pub fn list(slots: &[Slot]) -> Vec<u8> {
    let mut used: Vec<usize> = (0..slots.len()).filter(|&index| slots[index].length > 0).collect();
    used.sort_by_key(|&index| slots[index].designator);
    let mut tails = vec![NONE; slots.len()];
    for (tail, index) in tails.iter_mut().zip(used) {
        *tail = index as u8;
    }
    tails
}

/// "A list that disagrees with its board is 10": also where the used designators have no one rising order.
fn agrees(slots: &[Slot], tails: &[u8]) -> Result<(), Refusal> {
    let used: Vec<[u8; 6]> = slots.iter().filter(|slot| slot.length > 0).map(|slot| slot.designator).collect();
    let mut rising = used.clone();
    rising.sort_unstable();
    rising.dedup();
    let one_order = slots.len() <= SLOTS && rising.len() == used.len();
    if one_order && tails == list(slots) {
        Ok(())
    } else {
        refuse(BOARD, 0)
    }
}

pub fn make(slots: &[Slot], tails: &mut [u8]) -> Result<(), Refusal> {
    let made = list(slots);
    agrees(slots, &made)?;
    if tails.len() != made.len() {
        return refuse(BOARD, 0);
    }
    tails.copy_from_slice(&made);
    Ok(())
}

/// What a search finds: the slot, or that nothing waits, and how many of the list come before the aircraft.
#[derive(Clone, Copy, Debug, PartialEq, Eq)]
pub struct Found {
    pub slot: Result<usize, Refusal>,
    pub before: usize,
}

/// "A search through it answers as the walk does."
pub fn find(slots: &[Slot], tails: &[u8], of: &[u8]) -> Result<Found, Refusal> {
    agrees(slots, tails)?;
    let designator = board::designator(of)?;
    let used = |slot: &&Slot| slot.length > 0;
    let before = slots.iter().filter(used).filter(|slot| slot.designator < designator).count();
    let slot = slots.iter().position(|slot| slot.length > 0 && slot.designator == designator);
    Ok(Found { slot: slot.map_or(refuse(NOTHING, 0), Ok), before })
}

/// "After every add and take": the board's own answers, and the list of the board afterwards.
pub fn add(slots: &mut [Slot], area: &mut [u8], tails: &mut [u8], of: &[u8], text: &[u8]) -> Result<usize, Refusal> {
    board::check(slots, area)?;
    agrees(slots, tails)?;
    let length = board::add(slots, area, of, text)?;
    tails.copy_from_slice(&list(slots));
    Ok(length)
}

pub fn take(slots: &mut [Slot], area: &[u8], tails: &mut [u8], of: &[u8], out: &mut [u8]) -> Result<usize, Refusal> {
    board::check(slots, area)?;
    agrees(slots, tails)?;
    let length = board::take(slots, area, of, out)?;
    tails.copy_from_slice(&list(slots));
    Ok(length)
}
