//! Commands' texts and records.

use super::{arena, counted, short, Case as _, Held, GUARD};
use crate::asked::Replies;
use crate::meet::{self, uplink as meet_up};
use crate::ours::bytes_of;
use crate::ours::uplink::{Command, CommandGot};
use crate::second::settings::{self, MOST};
use crate::second::{command, spell, Refusal};
use crate::tally::Tally;
use crate::tell::{self, hex, BREAK};

pub enum Case {
    /// A text: checked, read, and where it is accepted its record written back.
    Text(Vec<u8>),
    /// A record of the header, written into a room; where it is written, its text read back.
    Record { record: Box<Command>, room: usize },
}

impl super::Case for Case {
    const PROGRAM: &'static str = "answer_command";

    fn question(&self, into: &mut Vec<u8>) {
        match self {
            Case::Text(text) => {
                into.push(1);
                counted(into, text);
            }
            Case::Record { record, room } => {
                into.push(2);
                into.extend(bytes_of(&**record));
                into.extend(short(*room));
            }
        }
    }

    fn hold(&self, replies: &mut Replies, tally: &mut Tally) -> Held {
        match self {
            Case::Text(text) => self.text(text, replies, tally),
            Case::Record { record, room } => self.record(record, *room, replies, tally),
        }
    }

    fn input(&self) -> String {
        match self {
            Case::Text(text) => tell::bytes(text),
            Case::Record { record, room } => {
                format!("room {room}, command{BREAK}{}", tell::uplink::command(record).join(BREAK))
            }
        }
    }

    fn words(&self) -> String {
        match self {
            Case::Text(text) => format!("command {}", hex(text)),
            Case::Record { record, room } => format!("command-record {} {room}", hex(bytes_of(&**record))),
        }
    }
}

impl Case {
    fn text(&self, text: &[u8], replies: &mut Replies, tally: &mut Tally) -> Held {
        let second = command::read(text);
        let checked = command::check(text);
        if checked.err() != second.as_ref().err().copied() {
            let (ours, second) = (format!("check: {checked:?}"), format!("read: {second:?}"));
            return self.mismatch("the second program's own check and read", ours, second);
        }
        self.answered("esk_command_check", replies.one(), meet::answer(checked.map(|()| 0)))?;
        self.read("esk_command_read", &second, replies)?;
        if second.is_ok() {
            let (_, left) = arena(MOST, |out| out[..text.len()].copy_from_slice(text));
            let call = "esk_command_write of the record that esk_command_read gave";
            self.written(call, meet::answer(Ok(text.len())), &left, replies)?;
        }
        tally.answer(&second);
        Ok(())
    }

    fn record(&self, record: &Command, room: usize, replies: &mut Replies, tally: &mut Tally) -> Held {
        let meant = meet_up::meant_command(record);
        let (second, left) = arena(room, |out| spell::write(&meant, out));
        self.written("esk_command_write", meet::answer(second), &left, replies)?;
        if let Ok(length) = second {
            self.read("esk_command_read of what was written", &Ok(meant), replies)?;
            let back = command::read(&left[GUARD..GUARD + length]);
            if back != Ok(meant) {
                let (ours, second) = (format!("the record: {meant:?}"), format!("read back: {back:?}"));
                return self.mismatch("the second program's read of what it wrote", ours, second);
            }
        }
        tally.answer(&second);
        Ok(())
    }

    /// The answer of the reader, every member of its record.
    fn read(&self, call: &'static str, second: &Result<settings::Command, Refusal>, replies: &mut Replies) -> Held {
        let want = meet_up::got(second);
        let got: CommandGot = replies.one();
        if got != want {
            let words = |one: &CommandGot, other: &CommandGot| {
                let [lines, others] = [one, other].map(|got| tell::uplink::command(&got.command));
                format!("{:?}{BREAK}{}", one.answer, tell::differing(lines, others))
            };
            return self.mismatch(call, words(&got, &want), words(&want, &got));
        }
        Ok(())
    }
}
