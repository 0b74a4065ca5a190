//! Two commands' texts joined into one; sections are copied as they stand.

use super::command::{walk, Keep};
use super::settings::*;
use super::{refuse, Refusal, ROOM};
use std::ops::Range;

/// A refusal, and which text it speaks of: 1, 2, or 0 for the room.
#[derive(Clone, Copy, Debug, PartialEq, Eq)]
pub struct Fault {
    pub text: u8,
    pub refusal: Refusal,
}

/// Joins two texts at the start of `out` and gives the length: the first's refusals, the second's, then room.
pub fn join(first: &[u8], second: &[u8], out: &mut [u8]) -> Result<usize, Fault> {
    let first = parts(first).map_err(|refusal| Fault { text: 1, refusal })?;
    let second = parts(second).map_err(|refusal| Fault { text: 2, refusal })?;
    first.then(&second, out).map_err(|refusal| Fault { text: 0, refusal })
}

/// An accepted text and where each of its sections 2 to 9 stands; a section that isn't named has no bytes.
pub struct Parts<'a> {
    text: &'a [u8],
    spans: Spans,
}

#[derive(Default)]
struct Spans([(u16, u16); 8]);

impl Keep for Spans {
    #[inline(always)]
    fn section(&mut self, number: usize, from: usize, to: usize) {
        self.0[number - 2] = (from as u16, to as u16);
    }
}

/// Checks a text and finds its sections.
pub fn parts(text: &[u8]) -> Result<Parts<'_>, Refusal> {
    let mut spans = Spans::default();
    walk(text, &mut spans)?;
    Ok(Parts { text, spans })
}

impl Parts<'_> {
    /// Where a section stands.
    #[inline(always)]
    pub fn span(&self, number: usize) -> Range<usize> {
        let (from, to) = self.spans.0[number - 2];
        usize::from(from)..usize::from(to)
    }

    /// Its bytes; none where it isn't named.
    #[inline(always)]
    pub fn section(&self, number: usize) -> &[u8] {
        &self.text[self.span(number)]
    }

    /// "Each flag and section from the second text where it sets one, else from the first; the larger downlink digit."
    pub fn then(&self, second: &Parts, out: &mut [u8]) -> Result<usize, Refusal> {
        let sections: [&[u8]; 8] = std::array::from_fn(|index| match second.section(index + 2) {
            [] => self.section(index + 2),
            section => section,
        });
        let length = HEAD + sections.iter().map(|section| section.len()).sum::<usize>();
        let Some(out) = out.get_mut(..length) else {
            return refuse(ROOM, 0);
        };
        for (at, byte) in out[..HEAD].iter_mut().enumerate() {
            *byte = head(at, self.text[at], second.text[at]);
        }
        let mut at = HEAD;
        for section in sections {
            out[at..at + section.len()].copy_from_slice(section);
            at += section.len();
        }
        Ok(length)
    }
}

/// The byte at a place before the sections.
#[inline(always)]
fn head(at: usize, first: u8, second: u8) -> u8 {
    match at {
        5..=11 if second == b'9' => first,
        12 => first.max(second),
        13..=20 if second == b'0' => first,
        _ => second,
    }
}
