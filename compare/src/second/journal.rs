//! Document 02, §8: the journal of what was taken, entries one behind the other, read from the end.
//!
//! A journal is the first bytes of a buffer. Every call goes through it once and builds nothing on the way; what is
//! printed is put down in a second, shorter walk, when it is known to fit.

use super::board::designator;
use super::command::{self, Keep};
use super::config;
use super::record::named;
use super::settings::*;
use super::{refuse, Refusal, JOURNAL, RANGE, ROOM};

/// "A journal of up to 65,535 bytes."
pub const BYTES: usize = 65_535;
/// "Six bytes of designator, the command text, then a trailer of three bytes."
pub const NAME: usize = 6;
pub const TRAILER: usize = 3;

/// An entry and where its first byte stands.
#[derive(Clone, Copy, Debug, PartialEq, Eq)]
pub struct Entry<'a> {
    pub offset: usize,
    pub designator: &'a [u8; NAME],
    pub text: &'a [u8],
}

/// The journal's own bytes: "14 .. at 0 where .. its length passes 65,535 or its buffer".
fn held(buffer: &[u8], end: usize) -> Result<&[u8], Refusal> {
    match buffer.get(..end) {
        Some(journal) if end <= BYTES => Ok(journal),
        _ => refuse(JOURNAL, 0),
    }
}

/// What the trailer at the end of some bytes frames; designator and text are not looked at.
#[inline(always)]
fn framed(bytes: &[u8]) -> Option<Entry<'_>> {
    let (front, &[high, low, letter]) = bytes.split_last_chunk()?;
    let length = usize::from(u16::from_be_bytes([high, low]));
    let offset = front.len().checked_sub(NAME + length)?;
    let (designator, text) = front[offset..].split_first_chunk()?;
    (letter == b'J').then_some(Entry { offset, designator, text })
}

/// The entry at the end of some bytes, of which there are any; `accepts` looks at its text.
#[inline(always)]
fn newest<'a>(bytes: &'a [u8], accepts: impl FnOnce(&Entry<'a>) -> bool) -> Result<Entry<'a>, Refusal> {
    match framed(bytes) {
        Some(entry) if named(entry.designator) && accepts(&entry) => Ok(entry),
        _ => refuse(JOURNAL, bytes.len().saturating_sub(TRAILER)),
    }
}

/// Hands on each entry, newest first; what was handed on before a refusal is worth nothing.
#[inline(always)]
fn walk<'a>(mut bytes: &'a [u8], mut accepts: impl FnMut(&Entry<'a>) -> bool) -> Result<(), Refusal> {
    while !bytes.is_empty() {
        bytes = &bytes[..newest(bytes, &mut accepts)?.offset];
    }
    Ok(())
}

#[inline(always)]
fn accepted(text: &[u8]) -> bool {
    command::check(text).is_ok()
}

/// Whether the first `end` bytes of a buffer are a journal.
pub fn check(buffer: &[u8], end: usize) -> Result<(), Refusal> {
    walk(held(buffer, end)?, |entry| accepted(entry.text))
}

/// The newest entry, if there is one; older ones are not looked at.
pub fn last(buffer: &[u8], end: usize) -> Result<Option<Entry<'_>>, Refusal> {
    match held(buffer, end)? {
        [] => Ok(None),
        journal => newest(journal, |entry| accepted(entry.text)).map(Some),
    }
}

/// Puts an entry behind the others and gives the journal's new length: "14, then the designator (4 at 0) .. then the
/// command's own refusals, last 2 where the entry doesn't fit in either".
pub fn add(buffer: &mut [u8], end: usize, of: &[u8], text: &[u8]) -> Result<usize, Refusal> {
    check(buffer, end)?;
    let name = designator(of)?;
    command::check(text)?;
    let behind = end + NAME + text.len() + TRAILER;
    if behind > buffer.len().min(BYTES) {
        return refuse(ROOM, 0);
    }
    let (front, back) = buffer[end..behind].split_at_mut(NAME);
    let (middle, trailer) = back.split_at_mut(text.len());
    let [high, low] = (text.len() as u16).to_be_bytes();
    front.copy_from_slice(&name);
    middle.copy_from_slice(text);
    trailer.copy_from_slice(&[high, low, b'J']);
    Ok(behind)
}

/// The length of what is left without the last `count` entries; 5 where there are fewer.
pub fn drop_last(buffer: &[u8], end: usize, count: usize) -> Result<usize, Refusal> {
    let (mut wanted, mut left) = (count, end);
    walk(held(buffer, end)?, |entry| {
        if wanted > 0 {
            (wanted, left) = (wanted - 1, entry.offset);
        }
        accepted(entry.text)
    })?;
    if wanted > 0 {
        return refuse(RANGE, 0);
    }
    Ok(left)
}

/// "Newest first: the entry's offset in decimal, a space, the designator, a space, the text, LF."
pub fn print(buffer: &[u8], end: usize, out: &mut [u8]) -> Result<usize, Refusal> {
    let mut journal = held(buffer, end)?;
    let mut length = 0;
    walk(journal, |entry| {
        length += figures(entry.offset) + NAME + entry.text.len() + 3;
        accepted(entry.text)
    })?;
    let Some(mut out) = out.get_mut(..length) else {
        return refuse(ROOM, 0);
    };
    while let Some(entry) = framed(journal) {
        journal = &journal[..entry.offset];
        out = line(&entry, out);
    }
    Ok(length)
}

/// How many decimal figures an offset has.
#[inline(always)]
fn figures(offset: usize) -> usize {
    match offset {
        0..=9 => 1,
        10..=99 => 2,
        100..=999 => 3,
        1000..=9999 => 4,
        _ => 5,
    }
}

/// Writes an entry's line and gives the room behind it.
fn line<'a>(entry: &Entry, out: &'a mut [u8]) -> &'a mut [u8] {
    let (number, out) = out.split_at_mut(figures(entry.offset));
    let mut rest = entry.offset;
    for byte in number.iter_mut().rev() {
        *byte = b'0' + (rest % 10) as u8;
        rest /= 10;
    }
    let (part, out) = out.split_at_mut(NAME + 2);
    let [a, b, c, d, e, f] = *entry.designator;
    part.copy_from_slice(&[b' ', a, b, c, d, e, f, b' ']);
    let (part, out) = out.split_at_mut(entry.text.len());
    part.copy_from_slice(entry.text);
    let (part, out) = out.split_at_mut(1);
    part[0] = b'\n';
    out
}

/// "Replay for one aircraft starts from reset and gives what its entries, in order, give." What stood in `settings` is
/// of no account; a refusal leaves it.
pub fn replay(settings: &mut Configuration, buffer: &[u8], end: usize, of: &[u8]) -> Result<(), Refusal> {
    let of = designator(of);
    let mut found = Found::default();
    walk(held(buffer, end)?, |entry| match of {
        Ok(name) if name == *entry.designator => found.older(entry.text),
        _ => accepted(entry.text),
    })?;
    of?;
    *settings = found.configuration();
    Ok(())
}

/// What is known of a configuration, its commands met from the newest back: a flag or section that a newer one has set
/// stays, since it would have taken the older one's place.
struct Found {
    /// 9 where none has set it.
    flags: Flags,
    sections: Sections,
    /// A bit for each section that one has set.
    set: u16,
}

impl Default for Found {
    fn default() -> Found {
        Found { flags: [NO_CHANGE; 7], sections: config::reset().sections, set: 0 }
    }
}

impl Found {
    /// The next older text; whether it is accepted.
    fn older(&mut self, text: &[u8]) -> bool {
        if command::walk(text, self).is_err() {
            return false;
        }
        for (held, flag) in self.flags.iter_mut().zip(command::flags(text)) {
            if *held == NO_CHANGE {
                *held = flag;
            }
        }
        true
    }

    fn configuration(&self) -> Configuration {
        let mut all = Configuration { sections: self.sections, ..config::reset() };
        for (held, flag) in all.flags.iter_mut().zip(self.flags) {
            if flag != NO_CHANGE {
                *held = flag;
            }
        }
        all
    }

    #[inline(always)]
    fn open(&mut self, section: usize) -> Option<&mut Sections> {
        (self.set >> section & 1 == 0).then_some(&mut self.sections)
    }
}

impl Keep for Found {
    #[inline(always)]
    fn boxes(&mut self, list: usize, count: u8) {
        if let Some(sections) = self.open(2) {
            sections.boxes(list, count);
        }
    }

    #[inline(always)]
    fn region(&mut self, list: usize, index: usize, region: Region) {
        if let Some(sections) = self.open(2) {
            sections.region(list, index, region);
        }
    }

    #[inline(always)]
    fn airfields(&mut self, list: usize, count: u8) {
        if let Some(sections) = self.open(3) {
            sections.airfields(list, count);
        }
    }

    #[inline(always)]
    fn airfield(&mut self, list: usize, index: usize, name: [u8; 4]) {
        if let Some(sections) = self.open(3) {
            sections.airfield(list, index, name);
        }
    }

    #[inline(always)]
    fn number(&mut self, section: usize, index: usize, number: u16) {
        if let Some(sections) = self.open(section) {
            sections.number(section, index, number);
        }
    }

    #[inline(always)]
    fn section(&mut self, section: usize, _from: usize, _to: usize) {
        self.set |= 1 << section;
    }
}
