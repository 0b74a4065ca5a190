//! Document 02, §13: the AMDARSTATUS3 sheet of source document 001, section 2.3.4, line by line as docs/STATUS-SHEET.md settles
//! it. One function goes through the fields in their order; what reads, checks and writes them is handed to it.

use super::{refuse, Refusal, BYTE, END, FIXED, RANGE, ROOM, SPELLING};

/// "24 lines, always 913 bytes".
pub const BYTES: usize = 913;

/// A box: two corners in minutes, north and east positive, and whether it is active.
#[derive(Clone, Copy, Debug, Default, PartialEq, Eq)]
pub struct Area {
    pub y1: i32,
    pub x1: i32,
    pub y2: i32,
    pub x2: i32,
    pub active: i32,
}

/// An airport, and whether it is active.
#[derive(Clone, Copy, Debug, Default, PartialEq, Eq)]
pub struct Port {
    pub icao: [u8; 4],
    pub active: i32,
}

/// What a sheet tells. Reporting statuses are 0, disabled, and 1, active.
#[derive(Clone, Debug, PartialEq, Eq)]
pub struct Sheet {
    pub aircraft: [u8; 6],
    pub ascent: i32,
    pub a1: i32,
    pub a2: i32,
    pub level: i32,
    pub seconds: i32,
    pub descent: i32,
    pub d1: i32,
    pub d2: i32,
    pub tl1: i32,
    pub tl2: i32,
    pub n: i32,
    pub method: i32,
    pub profile: i32,
    pub cruise: i32,
    pub devg: i32,
    pub instant: i32,
    pub areas: [Area; 10],
    /// Airports 1 to 50.
    pub ports: [Port; 50],
}

impl Default for Sheet {
    fn default() -> Sheet {
        Sheet {
            aircraft: [0; 6],
            ascent: 0,
            a1: 0,
            a2: 0,
            level: 0,
            seconds: 0,
            descent: 0,
            d1: 0,
            d2: 0,
            tl1: 0,
            tl2: 0,
            n: 0,
            method: 0,
            profile: 0,
            cruise: 0,
            devg: 0,
            instant: 0,
            areas: [Area::default(); 10],
            ports: [Port::default(); 50],
        }
    }
}

/// What is done with each field.
trait Hand {
    /// A fixed group.
    fn fixed(&mut self, bytes: &[u8]) -> Result<(), Refusal>;
    /// Bytes `A`-`Z`, `0`-`9`.
    fn name(&mut self, held: &mut [u8]) -> Result<(), Refusal>;
    /// One byte of a few; what is held is which of them it is.
    fn choice(&mut self, held: &mut i32, of: &[u8]) -> Result<(), Refusal>;
    /// A number at the right edge of its field.
    fn number(&mut self, held: &mut i32, width: usize, low: i32, high: i32) -> Result<(), Refusal>;
}

const LINE_END: &[u8] = b"\r\n";
const PHASE: &[u8] = b"DR";
const OFF_ON: &[u8] = b"01";

/// Every field of a sheet, from left to right and line by line.
fn each_field(sheet: &mut Sheet, hand: &mut impl Hand) -> Result<(), Refusal> {
    hand.fixed(b"- AMDARSTATUS3 ")?;
    hand.name(&mut sheet.aircraft)?;
    hand.fixed(LINE_END)?;
    hand.fixed(b"A")?;
    hand.choice(&mut sheet.ascent, PHASE)?;
    hand.number(&mut sheet.a1, 2, 1, 99)?;
    hand.fixed(b"/")?;
    hand.number(&mut sheet.a2, 2, 1, 99)?;
    hand.fixed(b" R")?;
    hand.choice(&mut sheet.level, PHASE)?;
    hand.number(&mut sheet.seconds, 3, 0, 999)?;
    hand.fixed(b" D")?;
    hand.choice(&mut sheet.descent, PHASE)?;
    hand.number(&mut sheet.d1, 2, 1, 99)?;
    hand.fixed(b"/")?;
    hand.number(&mut sheet.d2, 2, 1, 99)?;
    hand.fixed(LINE_END)?;
    hand.fixed(b"T1")?;
    hand.number(&mut sheet.tl1, 4, 0, 9999)?;
    hand.fixed(b" T2")?;
    hand.number(&mut sheet.tl2, 4, 0, 9999)?;
    hand.fixed(b" ")?;
    hand.number(&mut sheet.n, 2, 0, 99)?;
    hand.fixed(LINE_END)?;
    hand.fixed(b"S")?;
    hand.choice(&mut sheet.method, b"012")?;
    for (label, held) in [
        (&b" SP"[..], &mut sheet.profile),
        (b" SC", &mut sheet.cruise),
        (b" SD", &mut sheet.devg),
        (b" I", &mut sheet.instant),
    ] {
        hand.fixed(label)?;
        hand.number(held, 1, 0, 9)?;
    }
    hand.fixed(LINE_END)?;
    for (index, area) in sheet.areas.iter_mut().enumerate() {
        hand.fixed(format!("B{index} ").as_bytes())?;
        hand.number(&mut area.y1, 5, -5400, 5400)?;
        hand.fixed(b"/")?;
        hand.number(&mut area.x1, 6, -10_800, 10_800)?;
        hand.fixed(b" ")?;
        hand.number(&mut area.y2, 5, -5400, 5400)?;
        hand.fixed(b"/")?;
        hand.number(&mut area.x2, 6, -10_800, 10_800)?;
        hand.fixed(b" ")?;
        hand.choice(&mut area.active, OFF_ON)?;
        hand.fixed(LINE_END)?;
    }
    for row in 1..=10 {
        for which in (row..=50).step_by(10) {
            let blank = if which == row { "" } else { " " };
            hand.fixed(format!("{blank}A{which:<2}").as_bytes())?;
            let port = &mut sheet.ports[which - 1];
            hand.name(&mut port.icao)?;
            hand.fixed(b"/")?;
            hand.choice(&mut port.active, OFF_ON)?;
        }
        hand.fixed(LINE_END)?;
    }
    Ok(())
}

// ---- reading

struct Reader<'a> {
    text: &'a [u8],
    at: usize,
}

impl<'a> Reader<'a> {
    /// The bytes of a field; 8 at its start where the sheet ends before its end.
    fn field(&mut self, width: usize) -> Result<(usize, &'a [u8]), Refusal> {
        let start = self.at;
        let Some(bytes) = self.text.get(start..start + width) else {
            return refuse(END, start);
        };
        self.at += width;
        Ok((start, bytes))
    }
}

impl Hand for Reader<'_> {
    fn fixed(&mut self, bytes: &[u8]) -> Result<(), Refusal> {
        let (start, field) = self.field(bytes.len())?;
        if field == bytes {
            Ok(())
        } else {
            refuse(FIXED, start)
        }
    }

    fn name(&mut self, held: &mut [u8]) -> Result<(), Refusal> {
        let (start, field) = self.field(held.len())?;
        held.copy_from_slice(field);
        named(field, start)
    }

    fn choice(&mut self, held: &mut i32, of: &[u8]) -> Result<(), Refusal> {
        let (start, field) = self.field(1)?;
        match of.iter().position(|byte| *byte == field[0]) {
            Some(which) => *held = which as i32,
            None => return refuse(BYTE, start),
        }
        Ok(())
    }

    fn number(&mut self, held: &mut i32, width: usize, low: i32, high: i32) -> Result<(), Refusal> {
        let (start, field) = self.field(width)?;
        let spelt = field.trim_ascii_start_spaces();
        let (minus, digits) = match spelt {
            [b'-', digits @ ..] => (true, digits),
            digits => (false, digits),
        };
        if digits.is_empty() || !digits.iter().all(u8::is_ascii_digit) {
            return refuse(BYTE, start);
        }
        if (digits.len() > 1 && digits[0] == b'0') || (minus && digits == b"0") {
            return refuse(SPELLING, start);
        }
        let size = digits.iter().fold(0, |sum, digit| 10 * sum + i32::from(digit - b'0'));
        *held = if minus { -size } else { size };
        ranged(*held, low, high, start)
    }
}

trait Spaces {
    /// Without its leading spaces; other blanks stay.
    fn trim_ascii_start_spaces(&self) -> &Self;
}

impl Spaces for [u8] {
    fn trim_ascii_start_spaces(&self) -> &[u8] {
        let spaces = self.iter().take_while(|byte| **byte == b' ').count();
        &self[spaces..]
    }
}

fn named(name: &[u8], place: usize) -> Result<(), Refusal> {
    match name.iter().all(|byte| byte.is_ascii_uppercase() || byte.is_ascii_digit()) {
        true => Ok(()),
        false => refuse(BYTE, place),
    }
}

fn ranged(number: i32, low: i32, high: i32, place: usize) -> Result<(), Refusal> {
    match (low..=high).contains(&number) {
        true => Ok(()),
        false => refuse(RANGE, place),
    }
}

/// "Read and write it, one spelling for each record": bytes behind the last line are 8, found last.
pub fn read(text: &[u8]) -> Result<Sheet, Refusal> {
    let mut sheet = Sheet::default();
    let mut reader = Reader { text, at: 0 };
    each_field(&mut sheet, &mut reader)?;
    if reader.at < text.len() {
        return refuse(END, reader.at);
    }
    Ok(sheet)
}

pub fn check(text: &[u8]) -> Result<(), Refusal> {
    read(text).map(|_| ())
}

// ---- writing

/// The text so far. A field that is not allowed is refused where it would stand.
struct Writer {
    text: Vec<u8>,
}

impl Hand for Writer {
    fn fixed(&mut self, bytes: &[u8]) -> Result<(), Refusal> {
        self.text.extend(bytes);
        Ok(())
    }

    fn name(&mut self, held: &mut [u8]) -> Result<(), Refusal> {
        named(held, self.text.len())?;
        self.text.extend(&*held);
        Ok(())
    }

    fn choice(&mut self, held: &mut i32, of: &[u8]) -> Result<(), Refusal> {
        match usize::try_from(*held).ok().and_then(|which| of.get(which)) {
            Some(byte) => self.text.push(*byte),
            None => return refuse(BYTE, self.text.len()),
        }
        Ok(())
    }

    fn number(&mut self, held: &mut i32, width: usize, low: i32, high: i32) -> Result<(), Refusal> {
        ranged(*held, low, high, self.text.len())?;
        self.text.extend(format!("{held:>width$}").into_bytes());
        Ok(())
    }
}

/// The record's own refusals first, then room; on success the text stands at the start of `out`.
pub fn write(sheet: &Sheet, out: &mut [u8]) -> Result<usize, Refusal> {
    let mut writer = Writer { text: Vec::with_capacity(BYTES) };
    each_field(&mut sheet.clone(), &mut writer)?;
    if out.len() < writer.text.len() {
        return refuse(ROOM, 0);
    }
    out[..writer.text.len()].copy_from_slice(&writer.text);
    Ok(writer.text.len())
}
