//! A record's own checks, with the place where each field would stand.

use super::record::named;
use super::settings::*;
use super::{refuse, Refusal, BYTE, DISAGREE, RANGE, SPELLING};

/// The length of the text of an allowed command, or the first field from the left that is not allowed.
pub fn command(command: &Command) -> Result<usize, Refusal> {
    for (index, flag) in command.flags.iter().enumerate() {
        must(matches!(flag, 0 | 1 | 9), BYTE, 5 + index)?;
    }
    must(command.downlink <= 2, BYTE, 12)?;
    for (index, &named) in command.named.iter().enumerate() {
        let own = index as u8 + 2;
        must(named == 0 || named == own, BYTE, 13 + index)?;
    }
    must(command.spare == 0, DISAGREE, SPARE)?;
    let mut at = HEAD;
    for number in 2..=9 {
        if command.named[number - 2] != 0 {
            at = section(number, &command.sections, at)?;
        } else {
            must(zero(number, &command.sections), DISAGREE, at)?;
        }
    }
    Ok(at)
}

#[inline(always)]
fn must(fine: bool, code: u8, at: usize) -> Result<(), Refusal> {
    if fine {
        Ok(())
    } else {
        refuse(code, at)
    }
}

/// One section, 2 to 9, that begins at a place; gives the place behind its delimiter.
#[inline(always)]
pub fn section(number: usize, of: &Sections, mut at: usize) -> Result<usize, Refusal> {
    match number {
        2 => {
            for list in &of.boxes {
                at = boxes(list, at)?;
            }
        }
        3 => {
            for list in &of.airfields {
                at = airfields(list, at)?;
            }
            at = numbers(&ROUTINE, &of.airports, at)?;
        }
        4 => at = numbers(&ENROUTE, &of.enroute, at)?,
        5 => at = numbers(&ASCENT, &of.ascent, at)?,
        6 => at = numbers(&ROUTINE, &of.routine6, at)?,
        7 => at = numbers(&DESCENT, &of.descent, at)?,
        8 => at = numbers(&ROUTINE, &of.routine8, at)?,
        _ => at = numbers(&HOURS, &of.hours, at)?,
    }
    Ok(at + 1)
}

/// "Unnamed sections of a record are zero."
fn zero(number: usize, of: &Sections) -> bool {
    match number {
        2 => of.boxes.iter().all(empty),
        3 => of.airfields.iter().all(empty) && of.airports == [0],
        4 => of.enroute == [0; 2],
        5 => of.ascent == [0; 8],
        6 => of.routine6 == [0],
        7 => of.descent == [0; 5],
        8 => of.routine8 == [0],
        _ => of.hours == [0; 2],
    }
}

#[inline(always)]
fn numbers(row: &[Number], held: &[u16], mut at: usize) -> Result<usize, Refusal> {
    for (of, &number) in row.iter().zip(held) {
        must(of.low <= number && number <= of.high, of.code, at)?;
        at += of.bytes;
    }
    Ok(at)
}

/// The count's own range, and unused entries at the count: "7, at the list's count".
#[inline(always)]
fn list<T: Default + PartialEq, const N: usize>(list: &List<T, N>, at: usize) -> Result<(), Refusal> {
    let count = usize::from(list.count);
    must(count <= N, RANGE, at)?;
    must(unused(&list.entries[count..]), DISAGREE, at)
}

/// Entries that are all zero; looked at together, since they nearly always are.
#[inline(always)]
fn unused<T: Default + PartialEq>(entries: &[T]) -> bool {
    entries.iter().fold(true, |fine, entry| fine & (*entry == T::default()))
}

fn empty<T: Default + PartialEq, const N: usize>(list: &List<T, N>) -> bool {
    (list.count == 0) & unused(&list.entries)
}

#[inline(always)]
fn airfields(of: &Airfields, mut at: usize) -> Result<usize, Refusal> {
    list(of, at)?;
    at += 2;
    for name in of.used() {
        must(named(name), BYTE, at)?;
        at += 4;
    }
    Ok(at)
}

#[inline(always)]
fn boxes(of: &Boxes, mut at: usize) -> Result<usize, Refusal> {
    list(of, at)?;
    at += 2;
    for region in of.used() {
        edge(&LATITUDE, region.north, at)?;
        edge(&LATITUDE, region.south, at + 3)?;
        must(LATITUDE.degrees(region.north) >= LATITUDE.degrees(region.south), DISAGREE, at + 3)?;
        edge(&LONGITUDE, region.west, at + 6)?;
        edge(&LONGITUDE, region.east, at + 10)?;
        at += 14;
    }
    Ok(at)
}

#[inline(always)]
fn edge(circle: &Circle, edge: Edge, at: usize) -> Result<(), Refusal> {
    let spelt = (edge.degrees > 0) | (edge.letter == circle.above);
    let ranged = edge.degrees <= circle.most;
    if circle.has(edge.letter) & spelt & ranged {
        return Ok(());
    }
    must(circle.has(edge.letter), BYTE, at)?;
    must(spelt, SPELLING, at)?;
    must(ranged, RANGE, at)
}
