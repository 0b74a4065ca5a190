//! Document 02, §6: two offices share one board, each within its grant.

use super::board::{self, Slot};
use super::command;
use super::join::parts;
use super::settings::NO_CHANGE;
use super::{refuse, Refusal, NOT_GRANTED};

/// "Which flags, which sections, and whether it may ask for downlinks."
#[derive(Clone, Copy, Debug, Default, PartialEq, Eq)]
pub struct Grant {
    pub flags: [bool; 7],
    pub downlinks: bool,
    /// Sections 2 to 9.
    pub sections: [bool; 8],
}

/// A grant of everything: the base's one office.
pub const EVERYTHING: Grant = Grant { flags: [true; 7], downlinks: true, sections: [true; 8] };

fn share<const N: usize>(own: [bool; N], other: [bool; N]) -> bool {
    own.iter().zip(other).any(|(&own, other)| own && other)
}

impl Grant {
    /// "The grants may not overlap; at most one has downlinks."
    pub fn overlaps(&self, other: &Grant) -> bool {
        share(self.flags, other.flags) || share(self.sections, other.sections) || self.downlinks && other.downlinks
    }

    /// What an accepted command sets or asks for "outside its grant".
    pub fn outside(&self, text: &[u8]) -> Result<Grant, Refusal> {
        let parts = parts(text)?;
        let flags = command::flags(text);
        Ok(Grant {
            flags: std::array::from_fn(|index| flags[index] != NO_CHANGE && !self.flags[index]),
            downlinks: command::downlink(text) != 0 && !self.downlinks,
            sections: std::array::from_fn(|index| !parts.section(index + 2).is_empty() && !self.sections[index]),
        })
    }
}

/// Adds a command of the office with the grant `own`: "13 (not granted), at place 0, after the command's own refusals and
/// before 9; grants that overlap or both have downlinks give 13 before any other code."
pub fn add(
    slots: &mut [Slot],
    area: &mut [u8],
    of: &[u8],
    text: &[u8],
    [own, other]: [&Grant; 2],
) -> Result<usize, Refusal> {
    if own.overlaps(other) {
        return refuse(NOT_GRANTED, 0);
    }
    board::check(slots, area)?;
    board::designator(of)?;
    if own.outside(text)? != Grant::default() {
        return refuse(NOT_GRANTED, 0);
    }
    board::add(slots, area, of, text)
}

/// What lies inside a grant of an accepted text: seven flags, `9` where the flag is not set or not the office's, and the bytes
/// of its sections.
pub fn own_part(text: &[u8], own: &Grant) -> Vec<u8> {
    let Ok(parts) = parts(text) else {
        return Vec::new();
    };
    let flag = |index: usize| if own.flags[index] { text[5 + index] } else { b'9' };
    let sections = (0..8).filter(|&index| own.sections[index]).flat_map(|index| parts.section(index + 2).to_vec());
    (0..7).map(flag).chain(sections).collect()
}
