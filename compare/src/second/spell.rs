//! Writing a command: the record is checked first, then the room.

use super::settings::*;
use super::{allowed, refuse, Refusal, ROOM};

/// Writes a command at the start of `out` and gives its length; nothing is written on refusal.
pub fn write(command: &Command, out: &mut [u8]) -> Result<usize, Refusal> {
    let length = allowed::command(command)?;
    let Some(out) = out.get_mut(..length) else {
        return refuse(ROOM, 0);
    };
    let mut text = Text { out, at: 0 };
    text.bytes(b"AWR04");
    text.digits(&command.flags);
    text.digits(&[command.downlink]);
    text.digits(&command.named);
    text.bytes(b"/");
    for &number in command.named.iter().filter(|number| **number != 0) {
        text.section(number, &command.sections);
    }
    Ok(length)
}

/// A text that is as long as what will be put into it, and the place that it has come to.
struct Text<'a> {
    out: &'a mut [u8],
    at: usize,
}

impl Text<'_> {
    #[inline(always)]
    fn bytes(&mut self, bytes: &[u8]) {
        self.out[self.at..self.at + bytes.len()].copy_from_slice(bytes);
        self.at += bytes.len();
    }

    #[inline(always)]
    fn digits(&mut self, digits: &[u8]) {
        for digit in digits {
            self.bytes(&[b'0' + digit]);
        }
    }

    #[inline(always)]
    fn number(&mut self, bytes: usize, number: u16) {
        let mut rest = number;
        for byte in self.out[self.at..self.at + bytes].iter_mut().rev() {
            *byte = b'0' + (rest % 10) as u8;
            rest /= 10;
        }
        self.at += bytes;
    }

    #[inline(always)]
    fn numbers(&mut self, row: &[Number], held: &[u16]) {
        for (of, &number) in row.iter().zip(held) {
            self.number(of.bytes, number);
        }
    }

    fn section(&mut self, number: u8, of: &Sections) {
        match number {
            2 => of.boxes.iter().for_each(|list| self.boxes(list)),
            3 => {
                of.airfields.iter().for_each(|list| self.airfields(list));
                self.numbers(&ROUTINE, &of.airports);
            }
            4 => self.numbers(&ENROUTE, &of.enroute),
            5 => self.numbers(&ASCENT, &of.ascent),
            6 => self.numbers(&ROUTINE, &of.routine6),
            7 => self.numbers(&DESCENT, &of.descent),
            8 => self.numbers(&ROUTINE, &of.routine8),
            _ => self.numbers(&HOURS, &of.hours),
        }
        self.bytes(b"/");
    }

    #[inline(always)]
    fn airfields(&mut self, list: &Airfields) {
        self.number(2, u16::from(list.count));
        self.bytes(list.used().as_flattened());
    }

    #[inline(always)]
    fn boxes(&mut self, list: &Boxes) {
        self.number(2, u16::from(list.count));
        for region in list.used() {
            self.edge(2, region.north);
            self.edge(2, region.south);
            self.edge(3, region.west);
            self.edge(3, region.east);
        }
    }

    #[inline(always)]
    fn edge(&mut self, bytes: usize, edge: Edge) {
        self.number(bytes, u16::from(edge.degrees));
        self.bytes(&[edge.letter]);
    }
}
