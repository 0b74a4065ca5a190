//! Document 02, §7: one section of a command's text, "found from the header and the counts alone".

use super::settings::*;
use super::{command, refuse, Refusal, END, LENGTH, RANGE};
use std::ops::Range;

/// Where a section stands in a text, "delimiter included"; the empty part at 0 where the header doesn't name it. Neither
/// contents nor delimiters are looked at, nor anything behind the section.
pub fn find(number: u8, text: &[u8]) -> Result<Range<usize>, Refusal> {
    if !(2..=9).contains(&number) {
        return refuse(RANGE, 0);
    }
    if text.len() > MOST {
        return refuse(LENGTH, 0);
    }
    command::head(text)?;
    let named = |section: usize| text[INDICATOR + section] != b'0';
    let asked = usize::from(number);
    if !named(asked) {
        return Ok(0..0);
    }
    let mut from = HEAD;
    for passed in (2..asked).filter(|section| named(*section)) {
        from = behind(passed, text, from)?;
    }
    Ok(from..behind(asked, text, from)?)
}

/// The place behind a section that begins at a place: "a section passed over or asked for that runs past the end is 8 at
/// its start".
#[inline(always)]
fn behind(section: usize, text: &[u8], from: usize) -> Result<usize, Refusal> {
    let to = match section {
        2 => lists(2, 16, 14, text, from)? + 1,
        3 => lists(4, 20, 4, text, from)? + short(&ROUTINE),
        4 => from + short(&ENROUTE),
        5 => from + short(&ASCENT),
        6 | 8 => from + short(&ROUTINE),
        7 => from + short(&DESCENT),
        _ => from + short(&HOURS),
    };
    if to > text.len() {
        return refuse(END, from);
    }
    Ok(to)
}

/// The place behind so many lists, each a count up to `most` and entries of so many bytes: "8 at the count if it begins no
/// later than the text's end and is cut"; one that would begin later is the section's matter.
#[inline(always)]
fn lists(lists: usize, most: u16, bytes: usize, text: &[u8], from: usize) -> Result<usize, Refusal> {
    let mut at = from;
    for _ in 0..lists {
        if at > text.len() {
            return refuse(END, from);
        }
        at += 2 + bytes * usize::from(command::count(most, text, at)?);
    }
    Ok(at)
}
