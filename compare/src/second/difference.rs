//! Document 02, §5: what differs between two configurations, and the command that makes the first into the second.

use super::settings::*;
use super::{config, spell, Refusal};

/// What differs.
#[derive(Clone, Copy, Debug, Default, PartialEq, Eq)]
pub struct Difference {
    pub flags: [bool; 7],
    /// Sections 2 to 9.
    pub sections: [bool; 8],
}

impl Difference {
    /// "In the order of the command, each once, equal ones never": flags count from 1, sections from 12.
    pub fn items(&self) -> impl Iterator<Item = u8> + '_ {
        let flags = (1..).zip(&self.flags);
        flags.chain((12..).zip(&self.sections)).filter(|(_, differs)| **differs).map(|(item, _)| item)
    }
}

/// What differs, and the length of the command, which is written at the start of `out`. "Refusals: 12, then 2."
pub fn difference(
    first: &Configuration,
    second: &Configuration,
    out: &mut [u8],
) -> Result<(Difference, usize), Refusal> {
    config::valid(first)?;
    config::valid(second)?;
    let mut differs = Difference::default();
    let mut command = Command { flags: [NO_CHANGE; 7], ..Default::default() };
    for (index, (from, to)) in first.flags.iter().zip(second.flags).enumerate() {
        if *from != to {
            differs.flags[index] = true;
            command.flags[index] = to;
        }
    }
    for index in 0..8 {
        let number = index as u8 + 2;
        if carry(number, &first.sections, &second.sections, &mut command.sections) {
            differs.sections[index] = true;
            command.named[index] = number;
        }
    }
    Ok((differs, spell::write(&command, out)?))
}

/// Puts a section of the second configuration into a command where it is not the first one's; says whether it did.
fn carry(number: u8, first: &Sections, second: &Sections, into: &mut Sections) -> bool {
    fn one<T: Copy + PartialEq>(first: &T, second: &T, into: &mut T) -> bool {
        let differs = first != second;
        if differs {
            *into = *second;
        }
        differs
    }
    match number {
        2 => one(&first.boxes, &second.boxes, &mut into.boxes),
        3 => {
            let differs = first.airfields != second.airfields || first.airports != second.airports;
            if differs {
                (into.airfields, into.airports) = (second.airfields, second.airports);
            }
            differs
        }
        4 => one(&first.enroute, &second.enroute, &mut into.enroute),
        5 => one(&first.ascent, &second.ascent, &mut into.ascent),
        6 => one(&first.routine6, &second.routine6, &mut into.routine6),
        7 => one(&first.descent, &second.descent, &mut into.descent),
        8 => one(&first.routine8, &second.routine8, &mut into.routine8),
        _ => one(&first.hours, &second.hours, &mut into.hours),
    }
}
