//! A command's text: code 1, then the fields from left to right, in one walk that also hands on what it meets.

use super::record::named;
use super::settings::*;
use super::{refuse, Refusal, BYTE, DISAGREE, END, FIXED, LENGTH, RANGE, SPELLING};

/// What becomes of the parts of a text as they are met. Nothing, unless a method says otherwise.
pub trait Keep {
    fn boxes(&mut self, _list: usize, _count: u8) {}
    fn region(&mut self, _list: usize, _index: usize, _region: Region) {}
    fn airfields(&mut self, _list: usize, _count: u8) {}
    fn airfield(&mut self, _list: usize, _index: usize, _name: [u8; 4]) {}
    /// A number of section 3 (its routine digit) to 9.
    fn number(&mut self, _section: usize, _index: usize, _number: u16) {}
    /// A section, with its delimiter, has ended.
    fn section(&mut self, _section: usize, _from: usize, _to: usize) {}
}

impl Keep for () {}

/// The refusal of a command's text, if it has one; builds nothing.
pub fn check(text: &[u8]) -> Result<(), Refusal> {
    walk(text, &mut ())
}

/// The record of a command's text.
pub fn read(text: &[u8]) -> Result<Command, Refusal> {
    let mut command = Command::default();
    walk(text, &mut command.sections)?;
    command.flags = flags(text);
    command.downlink = downlink(text);
    for (named, byte) in command.named.iter_mut().zip(&text[13..21]) {
        *named = byte - b'0';
    }
    Ok(command)
}

/// The flags of an accepted text.
#[inline(always)]
pub fn flags(text: &[u8]) -> Flags {
    std::array::from_fn(|index| text[5 + index] - b'0')
}

/// The downlink digit of an accepted text.
#[inline(always)]
pub fn downlink(text: &[u8]) -> u8 {
    text[12] - b'0'
}

/// Goes through a whole text and hands its parts on; what was handed on before a refusal is worth nothing.
#[inline(always)]
pub fn walk(text: &[u8], keep: &mut impl Keep) -> Result<(), Refusal> {
    if text.len() > MOST {
        return refuse(LENGTH, 0);
    }
    head(text)?;
    let mut at = HEAD;
    for number in 2..=9 {
        if text[INDICATOR + number] != b'0' {
            let from = at;
            at = section(number, text, from, keep)?;
            keep.section(number, from, at);
        }
    }
    if at < text.len() {
        return refuse(END, at);
    }
    Ok(())
}

/// `AWR04`, seven flags, the downlink digit, eight indicators, `/`.
#[inline(always)]
pub fn head(text: &[u8]) -> Result<(), Refusal> {
    if field(text, 0)? != b"AWR04" {
        return refuse(FIXED, 0);
    }
    for at in 5..21 {
        let [byte] = *field(text, at)?;
        let allowed = match at {
            5..=11 => matches!(byte, b'0' | b'1' | b'9'),
            12 => matches!(byte, b'0'..=b'2'),
            _ => byte == b'0' || usize::from(byte) == usize::from(b'0') + at - INDICATOR,
        };
        if !allowed {
            return refuse(BYTE, at);
        }
    }
    delimiter(text, 21).map(|_| ())
}

/// One section and its delimiter; gives the place behind it. The contents of each section number.
#[inline(always)]
fn section(number: usize, text: &[u8], mut at: usize, keep: &mut impl Keep) -> Result<usize, Refusal> {
    match number {
        2 => {
            for list in 0..2 {
                at = boxes(list, text, at, keep)?;
            }
        }
        3 => {
            for list in 0..4 {
                at = airfields(list, text, at, keep)?;
            }
            at = numbers(3, &ROUTINE, text, at, keep)?;
        }
        4 => at = numbers(4, &ENROUTE, text, at, keep)?,
        5 => at = numbers(5, &ASCENT, text, at, keep)?,
        6 | 8 => at = numbers(number, &ROUTINE, text, at, keep)?,
        7 => at = numbers(7, &DESCENT, text, at, keep)?,
        _ => at = numbers(9, &HOURS, text, at, keep)?,
    }
    delimiter(text, at)
}

/// The bytes of a field; the text may end inside it. `at` is never beyond the text.
#[inline(always)]
fn field<const N: usize>(text: &[u8], at: usize) -> Result<&[u8; N], Refusal> {
    match text[at..].first_chunk() {
        Some(field) => Ok(field),
        None => refuse(END, at),
    }
}

#[inline(always)]
fn delimiter(text: &[u8], at: usize) -> Result<usize, Refusal> {
    match field(text, at)? {
        b"/" => Ok(at + 1),
        _ => refuse(FIXED, at),
    }
}

/// The number that bytes spell, and whether they are digits.
#[inline(always)]
fn digits(bytes: &[u8]) -> (u16, bool) {
    bytes.iter().fold((0, true), |(number, fine), byte| {
        let digit = byte.wrapping_sub(b'0');
        (number * 10 + u16::from(digit), fine & (digit <= 9))
    })
}

/// A number in its range: 4 for a byte that is no digit, `code` for another number.
#[inline(always)]
fn ranged(bytes: &[u8], low: u16, high: u16, code: u8, at: usize) -> Result<u16, Refusal> {
    let (number, fine) = digits(bytes);
    if fine & (low <= number) & (number <= high) {
        Ok(number)
    } else {
        refuse(if fine { code } else { BYTE }, at)
    }
}

#[inline(always)]
fn number(of: &Number, text: &[u8], at: usize) -> Result<u16, Refusal> {
    let Some(bytes) = text[at..].get(..of.bytes) else {
        return refuse(END, at);
    };
    ranged(bytes, of.low, of.high, of.code, at)
}

#[inline(always)]
fn numbers(section: usize, row: &[Number], text: &[u8], mut at: usize, keep: &mut impl Keep) -> Result<usize, Refusal> {
    for (index, of) in row.iter().enumerate() {
        keep.number(section, index, number(of, text, at)?);
        at += of.bytes;
    }
    Ok(at)
}

#[inline(always)]
pub fn count(most: u16, text: &[u8], at: usize) -> Result<u8, Refusal> {
    ranged(field::<2>(text, at)?, 0, most, RANGE, at).map(|count| count as u8)
}

#[inline(always)]
fn airfields(list: usize, text: &[u8], mut at: usize, keep: &mut impl Keep) -> Result<usize, Refusal> {
    let count = count(20, text, at)?;
    keep.airfields(list, count);
    at += 2;
    for index in 0..usize::from(count) {
        let name = field(text, at)?;
        if !named(name) {
            return refuse(BYTE, at);
        }
        keep.airfield(list, index, *name);
        at += 4;
    }
    Ok(at)
}

#[inline(always)]
fn boxes(list: usize, text: &[u8], mut at: usize, keep: &mut impl Keep) -> Result<usize, Refusal> {
    let count = count(16, text, at)?;
    keep.boxes(list, count);
    at += 2;
    for index in 0..usize::from(count) {
        keep.region(list, index, region(text, at)?);
        at += 14;
    }
    Ok(at)
}

/// "North not below south (else 7)", at the south edge. Any two longitudes make a box.
#[inline(always)]
fn region(text: &[u8], at: usize) -> Result<Region, Refusal> {
    let north = edge::<3>(&LATITUDE, text, at)?;
    let south = edge::<3>(&LATITUDE, text, at + 3)?;
    if LATITUDE.degrees(north) < LATITUDE.degrees(south) {
        return refuse(DISAGREE, at + 3);
    }
    let west = edge::<4>(&LONGITUDE, text, at + 6)?;
    let east = edge::<4>(&LONGITUDE, text, at + 10)?;
    Ok(Region { north, south, west, east })
}

/// Degrees and their letter, one field: 8, 4, 6, 5.
#[inline(always)]
fn edge<const N: usize>(circle: &Circle, text: &[u8], at: usize) -> Result<Edge, Refusal> {
    let field = field::<N>(text, at)?;
    let letter = field[N - 1];
    let (degrees, fine) = digits(&field[..N - 1]);
    let spelt = (degrees != 0) | (letter != circle.below);
    let ranged = degrees <= u16::from(circle.most);
    if fine & circle.has(letter) & spelt & ranged {
        return Ok(Edge { degrees: degrees as u8, letter });
    }
    let code = match (fine && circle.has(letter), spelt) {
        (false, _) => BYTE,
        (true, false) => SPELLING,
        _ => RANGE,
    };
    refuse(code, at)
}

/// Each section that is met takes the place of what was held of it.
impl Keep for Sections {
    #[inline(always)]
    fn boxes(&mut self, list: usize, count: u8) {
        self.boxes[list] = Boxes { count, ..Default::default() };
    }

    #[inline(always)]
    fn region(&mut self, list: usize, index: usize, region: Region) {
        self.boxes[list].entries[index] = region;
    }

    #[inline(always)]
    fn airfields(&mut self, list: usize, count: u8) {
        self.airfields[list] = Airfields { count, ..Default::default() };
    }

    #[inline(always)]
    fn airfield(&mut self, list: usize, index: usize, name: [u8; 4]) {
        self.airfields[list].entries[index] = name;
    }

    #[inline(always)]
    fn number(&mut self, section: usize, index: usize, number: u16) {
        match section {
            3 => self.airports[index] = number,
            4 => self.enroute[index] = number,
            5 => self.ascent[index] = number,
            6 => self.routine6[index] = number,
            7 => self.descent[index] = number,
            8 => self.routine8[index] = number,
            _ => self.hours[index] = number,
        }
    }
}
