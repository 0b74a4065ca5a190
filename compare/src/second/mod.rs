//! The second program, written from the text of documents 01 and 02 alone, and from the header's words where these say
//! more: packed figures, reports and gusts; commands and one section of them, the configuration, the decision and its reason,
//! joining, whether the order counts, the board, two offices on it, and the journal.

pub mod allowed;
pub mod board;
pub mod command;
pub mod commute;
pub mod config;
pub mod decide;
pub mod difference;
pub mod gust;
pub mod join;
pub mod journal;
pub mod office;
pub mod packed;
pub mod part;
pub mod raw;
pub mod record;
pub mod report;
pub mod settings;
pub mod sheet;
pub mod spell;
pub mod tails;
pub mod track;
pub mod write;

#[cfg(test)]
mod tests;

/// Codes of "Numbers that come back".
pub const LENGTH: u8 = 1;
pub const ROOM: u8 = 2;
pub const FIXED: u8 = 3;
pub const BYTE: u8 = 4;
pub const RANGE: u8 = 5;
pub const SPELLING: u8 = 6;
pub const DISAGREE: u8 = 7;
pub const END: u8 = 8;
pub const NO_SLOT: u8 = 9;
pub const BOARD: u8 = 10;
pub const NOTHING: u8 = 11;
pub const SETTINGS: u8 = 12;
pub const NOT_GRANTED: u8 = 13;
pub const JOURNAL: u8 = 14;

/// A refusal carries nothing but a code and a place.
#[derive(Clone, Copy, Debug, PartialEq, Eq)]
pub struct Refusal {
    pub code: u8,
    pub place: u32,
}

#[inline(always)]
pub fn refuse<T>(code: u8, place: usize) -> Result<T, Refusal> {
    Err(Refusal { code, place: place as u32 })
}
