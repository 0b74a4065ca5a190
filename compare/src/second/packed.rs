//! Packed figures: base 40, most significant digit first, less 20·40^(k-1) for k digits.

use super::raw::Figure;
use super::{refuse, Refusal, BYTE, DISAGREE, LENGTH, RANGE, ROOM, SPELLING};

/// The forty digits in the order of their worth; the last four are those of section 3.1 of source document 001.
static DIGITS: [u8; 40] = *b"0123456789ABCDEFGHIJKLMNOPQRSTUVWXYZ:,-.";

/// The worth of a byte that is no digit: above every digit's, and told by its top bit.
const NONE: u8 = 0x80;

/// "One table of 256 entries gives every byte its worth."
static WORTH: [u8; 256] = worths();

const fn worths() -> [u8; 256] {
    let digits = b"0123456789ABCDEFGHIJKLMNOPQRSTUVWXYZ:,-.";
    let mut table = [NONE; 256];
    let mut worth = 0;
    while worth < 40 {
        table[digits[worth] as usize] = worth as u8;
        worth += 1;
    }
    table
}

/// `HALF[k]` is 20·40^(k-1): k digits hold the figures from -HALF[k] up to, not including, HALF[k].
const HALF: [i32; 6] = [0, 20, 800, 32_000, 1_280_000, 51_200_000];

#[inline(always)]
fn fits(figure: i32, digits: usize) -> bool {
    -HALF[digits] <= figure && figure < HALF[digits]
}

/// Reads a lone field; a missing figure is `None`.
pub fn read(field: &[u8]) -> Result<Option<i32>, Refusal> {
    if field.is_empty() || field.len() > 5 {
        return refuse(LENGTH, 0);
    }
    figure(field)
}

/// The figure of a field of 1 to 5 bytes: 4 before 6. A refusal's place is counted from the field's first byte.
#[inline(always)]
pub fn figure(field: &[u8]) -> Result<Option<i32>, Refusal> {
    let mut spaces = 0;
    while spaces < field.len() && field[spaces] == b' ' {
        spaces += 1;
    }
    let digits = field.len() - spaces;
    let mut sum = 0u32;
    for &byte in &field[spaces..] {
        let worth = WORTH[byte as usize];
        if worth == NONE {
            return without_digits(field);
        }
        sum = sum * 40 + u32::from(worth);
    }
    if digits == 0 {
        return refuse(BYTE, offending(field));
    }
    let figure = sum as i32 - HALF[digits];
    if fits(figure, digits - 1) {
        return refuse(SPELLING, 0);
    }
    Ok(Some(figure))
}

/// A field wholly `/` is a missing figure; any other field with a byte that is no digit is refused.
#[inline(always)]
fn without_digits(field: &[u8]) -> Result<Option<i32>, Refusal> {
    if field.iter().all(|&byte| byte == b'/') {
        Ok(None)
    } else {
        refuse(BYTE, offending(field))
    }
}

/// Where code 4 points: "the first byte, left to right, up to and with which no field of that width free of code 4 could
/// begin". The field itself is not free of it, so there is one.
#[cold]
#[inline(never)]
fn offending(field: &[u8]) -> usize {
    (0..field.len()).find(|&at| !begins(&field[..=at], field.len())).expect("a field that code 4 refuses")
}

/// Whether a field of a width that is free of code 4 could begin with some bytes: all are tried, with one digit for the
/// forty, of which code 4 tells none from another.
fn begins(front: &[u8], width: usize) -> bool {
    let length = front.len();
    if length == width {
        return free(front);
    }
    let mut longer = [0; 5];
    longer[..length].copy_from_slice(front);
    b" /0".iter().any(|&next| {
        longer[length] = next;
        begins(&longer[..=length], width)
    })
}

/// Whether a field is free of code 4: "leading spaces, then at least one digit", or "wholly `/`".
fn free(field: &[u8]) -> bool {
    let spaces = field.iter().take_while(|&&byte| byte == b' ').count();
    let digits = field[spaces..].iter().all(|&byte| WORTH[usize::from(byte)] != NONE);
    digits && spaces < field.len() || field.iter().all(|&byte| byte == b'/')
}

/// Writes a figure, or a missing one, at the start of `out`: code 1 for the width, then 5, then 7 for a figure that is
/// not of its one form, then 2.
pub fn write(figure: Figure, width: usize, out: &mut [u8]) -> Result<usize, Refusal> {
    if width == 0 || width > 5 {
        return refuse(LENGTH, 0);
    }
    if figure.meant().is_some_and(|figure| !fits(figure, width)) {
        return refuse(RANGE, 0);
    }
    if !figure.formed() {
        return refuse(DISAGREE, 0);
    }
    if out.len() < width {
        return refuse(ROOM, 0);
    }
    put(figure.meant(), &mut out[..width]);
    Ok(width)
}

/// Spells a figure that fits into a field: the fewest digits that hold it, behind spaces; a missing one as solidi.
#[inline(always)]
pub fn put(figure: Option<i32>, field: &mut [u8]) {
    let Some(figure) = figure else {
        return field.fill(b'/');
    };
    let mut digits = 1;
    while !fits(figure, digits) {
        digits += 1;
    }
    let mut rest = (figure + HALF[digits]) as u32;
    let spaces = field.len() - digits;
    field[..spaces].fill(b' ');
    for byte in field[spaces..].iter_mut().rev() {
        *byte = DIGITS[(rest % 40) as usize];
        rest /= 40;
    }
}
