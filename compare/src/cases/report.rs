//! Packed figures and reports.

use super::{arena, counted, short, Case as _, Held, GUARD};
use crate::asked::Replies;
use crate::meet;
use crate::ours::{self, bytes_of};
use crate::second::record::BYTES;
use crate::second::{packed, report, write, Refusal};
use crate::tally::{Outcome, Tally};
use crate::tell::{self, hex, BREAK};

pub enum Case {
    /// A lone packed field.
    PackedRead(Vec<u8>),
    PackedWrite {
        figure: ours::Figure,
        width: usize,
        room: usize,
    },
    /// A report's text: checked, read, and where it is accepted its record written back.
    Report(Vec<u8>),
    /// A record of the header, written into a room; where it is written, its text read back, to the same record: it has
    /// but one form.
    Record {
        record: Box<ours::Report>,
        room: usize,
    },
}

impl super::Case for Case {
    const PROGRAM: &'static str = "answer";

    fn question(&self, into: &mut Vec<u8>) {
        match self {
            Case::PackedRead(bytes) | Case::Report(bytes) => {
                into.push(if matches!(self, Case::Report(_)) { 3 } else { 1 });
                counted(into, bytes);
            }
            Case::PackedWrite { figure, width, room } => {
                into.push(2);
                into.extend(bytes_of(figure));
                into.extend((*width as u64).to_le_bytes());
                into.extend(short(*room));
            }
            Case::Record { record, room } => {
                into.push(4);
                into.extend(bytes_of(&**record));
                into.extend(short(*room));
            }
        }
    }

    fn hold(&self, replies: &mut Replies, tally: &mut Tally) -> Held {
        match self {
            Case::PackedRead(field) => self.packed_read(field, replies, tally),
            Case::PackedWrite { figure, width, room } => self.packed_write(*figure, *width, *room, replies, tally),
            Case::Report(text) => self.report(text, replies, tally),
            Case::Record { record, room } => self.record(record, *room, replies, tally),
        }
    }

    fn input(&self) -> String {
        match self {
            Case::PackedRead(field) => tell::bytes(field),
            Case::PackedWrite { figure, width, room } => format!("{figure:?}, width {width}, room {room}"),
            Case::Report(text) => tell::bytes(text),
            Case::Record { record, room } => {
                format!("room {room}, record{BREAK}{}", tell::record(record).join(BREAK))
            }
        }
    }

    fn words(&self) -> String {
        match self {
            Case::PackedRead(field) => format!("packed-read {}", hex(field)),
            Case::PackedWrite { figure, width, room } => {
                format!("packed-write {} {} {width} {room}", figure.number, figure.given)
            }
            Case::Report(text) => format!("report {}", hex(text)),
            Case::Record { record, room } => format!("record {} {room}", hex(bytes_of(&**record))),
        }
    }
}

impl Case {
    fn packed_read(&self, field: &[u8], replies: &mut Replies, tally: &mut Tally) -> Held {
        let second = packed::read(field);
        let want = meet::packed(second);
        self.answered("esk_packed_read", replies.one(), want)?;
        if second == Ok(None) {
            tally.count(Outcome::Missing);
        } else {
            tally.answer(&second);
        }
        Ok(())
    }

    fn packed_write(
        &self,
        figure: ours::Figure,
        width: usize,
        room: usize,
        replies: &mut Replies,
        tally: &mut Tally,
    ) -> Held {
        let (second, left) = arena(room, |out| packed::write(meet::raw_figure(figure), width, out));
        self.written("esk_packed_write", meet::answer(second), &left, replies)?;
        tally.answer(&second);
        Ok(())
    }

    fn report(&self, text: &[u8], replies: &mut Replies, tally: &mut Tally) -> Held {
        let second = report::read(text);
        let checked = report::check(text);
        if checked.err() != second.as_ref().err().copied() {
            let (ours, second) = (format!("check: {checked:?}"), format!("read: {second:?}"));
            return self.mismatch("the second program's own check and read", ours, second);
        }
        let want = meet::answer(checked.map(|()| 0));
        self.answered("esk_report_check", replies.one(), want)?;
        self.read("esk_report_read", &second, replies)?;
        if second.is_ok() {
            let (_, mut left) = arena(BYTES, |_| ());
            left[GUARD..GUARD + BYTES].copy_from_slice(text);
            let call = "esk_report_write of the record that esk_report_read gave";
            self.written(call, meet::answer(Ok(BYTES)), &left, replies)?;
        }
        tally.answer(&second);
        Ok(())
    }

    fn record(&self, record: &ours::Report, room: usize, replies: &mut Replies, tally: &mut Tally) -> Held {
        let (second, left) = arena(room, |out| write::write(&meet::raw_record(record), out));
        self.written("esk_report_write", meet::answer(second), &left, replies)?;
        if second.is_ok() {
            let back = report::read(&left[GUARD..GUARD + BYTES]);
            if meet::got(&back).report != *record {
                let (ours, second) = (format!("the record: {record:?}"), format!("read back: {back:?}"));
                return self.mismatch("the second program's read of what it wrote", ours, second);
            }
            self.read("esk_report_read of what was written", &back, replies)?;
        }
        tally.answer(&second);
        Ok(())
    }

    /// The answer of the reader, every member of its record; of the records only the lines that differ are told.
    fn read(
        &self,
        call: &'static str,
        second: &Result<crate::second::record::Report, Refusal>,
        replies: &mut Replies,
    ) -> Held {
        let want = meet::got(second);
        let got: ours::ReportGot = replies.one();
        if got != want {
            let words = |one: &ours::ReportGot, other: &ours::ReportGot| {
                format!(
                    "{:?}{BREAK}{}",
                    one.answer,
                    tell::differing(tell::record(&one.report), tell::record(&other.report))
                )
            };
            return self.mismatch(call, words(&got, &want), words(&want, &got));
        }
        Ok(())
    }
}
