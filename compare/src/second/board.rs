//! The board of waiting commands: slots that the caller lends, and the longest command's bytes of text for each.

use super::join::parts;
use super::record::named;
use super::settings::MOST;
use super::{command, refuse, Refusal, BOARD, BYTE, NOTHING, NO_SLOT, ROOM};

/// "Designator, length; length 0 is free."
#[derive(Clone, Copy, Debug, PartialEq, Eq)]
pub struct Slot {
    pub designator: [u8; 6],
    pub length: u16,
}

pub const SLOTS: usize = 64;

impl Slot {
    fn used(&self) -> bool {
        self.length > 0
    }
}

pub fn check(slots: &[Slot], area: &[u8]) -> Result<(), Refusal> {
    if valid(slots, area) {
        Ok(())
    } else {
        refuse(BOARD, 0)
    }
}

/// "At most 64 slots, an area of exactly" the longest command's "bytes for each, used designators well formed and
/// different, used texts accepted."
fn valid(slots: &[Slot], area: &[u8]) -> bool {
    if slots.len() > SLOTS || area.len() != MOST * slots.len() {
        return false;
    }
    let mut seen = [0; SLOTS];
    let used = slots.iter().zip(area.chunks_exact(MOST)).filter(|(slot, _)| slot.used());
    for (count, (slot, part)) in used.enumerate() {
        seen[count] = key(slot.designator);
        let fine = named(&slot.designator) && !seen[..count].contains(&seen[count]);
        match part.get(..usize::from(slot.length)) {
            Some(text) if fine && command::check(text).is_ok() => (),
            _ => return false,
        }
    }
    true
}

/// A designator as one number.
#[inline(always)]
fn key([a, b, c, d, e, f]: [u8; 6]) -> u64 {
    u64::from_le_bytes([a, b, c, d, e, f, 0, 0])
}

/// "A designator argument that isn't six allowed bytes is 4 at place 0."
pub fn designator(bytes: &[u8]) -> Result<[u8; 6], Refusal> {
    match bytes.try_into() {
        Ok(designator) if named(bytes) => Ok(designator),
        _ => refuse(BYTE, 0),
    }
}

/// The slot in which a text waits for an aircraft.
fn waiting(slots: &[Slot], designator: [u8; 6]) -> Option<usize> {
    slots.iter().position(|slot| slot.used() && slot.designator == designator)
}

/// Adds a command and gives the length of the text that then waits.
pub fn add(slots: &mut [Slot], area: &mut [u8], of: &[u8], text: &[u8]) -> Result<usize, Refusal> {
    check(slots, area)?;
    let designator = designator(of)?;
    let added = parts(text)?;
    let (index, length) = if let Some(index) = waiting(slots, designator) {
        let part = &mut area[index * MOST..(index + 1) * MOST];
        let mut joined = [0; MOST];
        let length = parts(&part[..usize::from(slots[index].length)])?.then(&added, &mut joined)?;
        part[..length].copy_from_slice(&joined[..length]);
        (index, length)
    } else if let Some(index) = slots.iter().position(|slot| !slot.used()) {
        area[index * MOST..][..text.len()].copy_from_slice(text);
        (index, text.len())
    } else {
        return refuse(NO_SLOT, 0);
    };
    slots[index] = Slot { designator, length: length as u16 };
    Ok(length)
}

/// Copies out what waits for an aircraft, frees its slot and gives the text's length.
pub fn take(slots: &mut [Slot], area: &[u8], of: &[u8], out: &mut [u8]) -> Result<usize, Refusal> {
    check(slots, area)?;
    let designator = designator(of)?;
    let Some(index) = waiting(slots, designator) else {
        return refuse(NOTHING, 0);
    };
    let length = usize::from(slots[index].length);
    let Some(out) = out.get_mut(..length) else {
        return refuse(ROOM, 0);
    };
    out.copy_from_slice(&area[index * MOST..][..length]);
    slots[index].length = 0;
    Ok(length)
}
