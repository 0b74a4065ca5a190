//! The status sheet: a text or a record.

use super::{arena, counted, short, Case as _, Held, GUARD};
use crate::asked::Replies;
use crate::meet;
use crate::ours::{self, bytes_of};
use crate::second::sheet::{check, read, write, Sheet, BYTES};
use crate::second::Refusal;
use crate::tally::Tally;
use crate::tell::{self, hex, BREAK};

pub enum Case {
    /// A sheet's text: checked, read, and where it is accepted its record written back.
    Text(Vec<u8>),
    /// A record of the header, written into a room; where it is written, its text read back, to the same record.
    Record { record: Box<ours::Sheet>, room: usize },
}

impl super::Case for Case {
    const PROGRAM: &'static str = "answer_sheet";

    fn question(&self, into: &mut Vec<u8>) {
        match self {
            Case::Text(text) => {
                into.push(1);
                counted(into, text);
            }
            Case::Record { record, room } => {
                into.push(2);
                into.extend(bytes_of(&**record));
                into.extend(short(*room));
            }
        }
    }

    fn hold(&self, replies: &mut Replies, tally: &mut Tally) -> Held {
        match self {
            Case::Text(text) => self.text(text, replies, tally),
            Case::Record { record, room } => self.record(record, *room, replies, tally),
        }
    }

    fn input(&self) -> String {
        match self {
            Case::Text(text) => tell::bytes(text),
            Case::Record { record, room } => format!("room {room}, record{BREAK}{record:?}"),
        }
    }

    fn words(&self) -> String {
        match self {
            Case::Text(text) => format!("sheet {}", hex(text)),
            Case::Record { record, room } => format!("sheet-record {} {room}", hex(bytes_of(&**record))),
        }
    }
}

impl Case {
    fn text(&self, text: &[u8], replies: &mut Replies, tally: &mut Tally) -> Held {
        let second = read(text);
        self.answered("esk_sheet_check", replies.one(), meet::answer(check(text).map(|()| 0)))?;
        self.read("esk_sheet_read", &second, replies)?;
        if second.is_ok() {
            let (_, mut left) = arena(BYTES, |_| ());
            left[GUARD..GUARD + BYTES].copy_from_slice(text);
            let call = "esk_sheet_write of the record that esk_sheet_read gave";
            self.written(call, meet::answer(Ok(BYTES)), &left, replies)?;
        }
        tally.answer(&second);
        Ok(())
    }

    fn record(&self, record: &ours::Sheet, room: usize, replies: &mut Replies, tally: &mut Tally) -> Held {
        let (second, left) = arena(room, |out| write(&meet::raw_sheet(record), out));
        self.written("esk_sheet_write", meet::answer(second), &left, replies)?;
        if second.is_ok() {
            let back = read(&left[GUARD..GUARD + BYTES]);
            if meet::sheet_got(&back).sheet != *record {
                let (ours, second) = (format!("the record: {record:?}"), format!("read back: {back:?}"));
                return self.mismatch("the second program's read of what it wrote", ours, second);
            }
            self.read("esk_sheet_read of what was written", &back, replies)?;
        }
        tally.answer(&second);
        Ok(())
    }

    /// The answer of the reader, every member of its record.
    fn read(&self, call: &'static str, second: &Result<Sheet, Refusal>, replies: &mut Replies) -> Held {
        let got: ours::SheetGot = replies.one();
        self.answered(call, got, meet::sheet_got(second))
    }
}
