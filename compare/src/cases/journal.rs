//! A buffer with a journal and a run of events on it; after each call every byte of buffer, printing room, settings and
//! guards is compared.

use super::{arena, counted, pattern, Held, GUARD};
use crate::asked::Replies;
use crate::meet::{self, uplink as meet_up};
use crate::ours::uplink::{Entry, Settings};
use crate::ours::{bytes_of, Answer};
use crate::second::{config, journal, Refusal};
use crate::tally::Tally;
use crate::tell::uplink::difference;
use crate::tell::{self, hex, BREAK};

#[derive(Clone)]
pub enum Call {
    Check,
    Last,
    Add { designator: Vec<u8>, text: Vec<u8> },
    Drop { count: usize },
    Print { room: usize },
    Replay { designator: Vec<u8> },
}

#[derive(Clone)]
pub enum Event {
    /// A call on the first `end` bytes.
    Ask { end: usize, call: Call },
    /// A byte of the buffer made another one.
    Put { at: usize, byte: u8 },
}

#[derive(Clone)]
pub struct Case {
    pub buffer: Vec<u8>,
    pub events: Vec<Event>,
}

/// An answer, every member of it.
#[derive(PartialEq, Debug)]
enum Told {
    Answer(Answer),
    Entry(Entry),
}

/// What a call answers, and what it leaves of the printing room or the settings, with their guards; no byte where
/// neither was lent.
#[derive(PartialEq)]
struct Reply {
    told: Told,
    left: Vec<u8>,
}

/// How a call came out, and the second program's reply.
type Made = (Result<(), Refusal>, Reply);

fn made(answer: Result<usize, Refusal>, left: Vec<u8>) -> Made {
    (answer.map(|_| ()), Reply { told: Told::Answer(meet::answer(answer)), left })
}

/// The call on the second program's buffer.
fn make(buffer: &mut [u8], end: usize, call: &Call) -> Made {
    match call {
        Call::Check => made(journal::check(buffer, end).map(|()| 0), Vec::new()),
        Call::Last => {
            let last = journal::last(buffer, end);
            (last.map(|_| ()), Reply { told: Told::Entry(meet_up::entry(last)), left: Vec::new() })
        }
        Call::Add { designator, text } => made(journal::add(buffer, end, designator, text), Vec::new()),
        Call::Drop { count } => made(journal::drop_last(buffer, end, *count), Vec::new()),
        Call::Print { room } => {
            let (answer, left) = arena(*room, |out| journal::print(buffer, end, out));
            made(answer, left)
        }
        Call::Replay { designator } => {
            let mut held = config::reset();
            let answer = journal::replay(&mut held, buffer, end, designator);
            let ((), left) = arena(size_of::<Settings>(), |out| {
                if answer.is_ok() {
                    out.copy_from_slice(bytes_of(&meet_up::configuration(&held)));
                }
            });
            made(answer.map(|()| 0), left)
        }
    }
}

impl super::Case for Case {
    const PROGRAM: &'static str = "answer_journal";

    fn question(&self, into: &mut Vec<u8>) {
        into.extend(word(self.buffer.len()));
        into.extend(&self.buffer);
        into.extend(word(self.events.len()));
        for event in &self.events {
            match event {
                Event::Put { at, byte } => {
                    into.push(7);
                    into.extend(word(*at));
                    into.push(*byte);
                }
                Event::Ask { end, call } => ask(into, *end, call),
            }
        }
    }

    fn hold(&self, replies: &mut Replies, tally: &mut Tally) -> Held {
        let mut second = self.buffer.clone();
        let mut ours = block(&second);
        for (index, event) in self.events.iter().enumerate() {
            match event {
                Event::Put { at, byte } => (second[*at], ours[GUARD + at]) = (*byte, *byte),
                Event::Ask { end, call } => {
                    let (outcome, want) = make(&mut second, *end, call);
                    let got = taken(call, want.left.len(), &mut ours, replies);
                    if got != want || !holds(&ours, &second) {
                        let block = block(&second);
                        let (ours, second) = (words(&got, &ours, &want, &block), words(&want, &block, &got, &ours));
                        return self.alone(index).mismatch(name(call), ours, second);
                    }
                    tally.answer(&outcome);
                }
            }
        }
        Ok(())
    }

    fn input(&self) -> String {
        let events = self.events.iter().map(told).collect::<Vec<_>>().join(BREAK);
        format!("{events}{BREAK}buffer {}", tell::bytes(&self.buffer))
    }

    /// Of a case with one event.
    fn words(&self) -> String {
        let buffer = hex(&self.buffer);
        let Event::Ask { end, call } = &self.events[0] else {
            return String::new();
        };
        match call {
            Call::Check => format!("journal-check {buffer} {end}"),
            Call::Last => format!("journal-last {buffer} {end}"),
            Call::Add { designator, text } => format!("journal-add {buffer} {end} {} {}", hex(designator), hex(text)),
            Call::Drop { count } => format!("journal-drop {buffer} {end} {count}"),
            Call::Print { room } => format!("journal-print {buffer} {end} {room}"),
            Call::Replay { designator } => format!("journal-replay {buffer} {end} {}", hex(designator)),
        }
    }

    fn parts(&self) -> Vec<Case> {
        let asks = (0..self.events.len()).filter(|index| matches!(self.events[*index], Event::Ask { .. }));
        asks.map(|index| self.alone(index)).collect()
    }
}

impl Case {
    /// The buffer as the events before one left it, and that event alone.
    fn alone(&self, index: usize) -> Case {
        let mut buffer = self.buffer.clone();
        for event in &self.events[..index] {
            match event {
                Event::Put { at, byte } => buffer[*at] = *byte,
                Event::Ask { end, call } => drop(make(&mut buffer, *end, call)),
            }
        }
        Case { buffer, events: vec![self.events[index].clone()] }
    }
}

fn word(number: usize) -> [u8; 4] {
    u32::try_from(number).expect("rooms and places of questions have four bytes").to_le_bytes()
}

fn ask(into: &mut Vec<u8>, end: usize, call: &Call) {
    into.push(match call {
        Call::Check => 1,
        Call::Last => 2,
        Call::Add { .. } => 3,
        Call::Drop { .. } => 4,
        Call::Print { .. } => 5,
        Call::Replay { .. } => 6,
    });
    into.extend((end as u64).to_le_bytes());
    match call {
        Call::Check | Call::Last => (),
        Call::Add { designator, text } => {
            counted(into, designator);
            counted(into, text);
        }
        Call::Drop { count } => into.extend((*count as u64).to_le_bytes()),
        Call::Print { room } => into.extend(word(*room)),
        Call::Replay { designator } => counted(into, designator),
    }
}

/// The buffer as host/test/answer_journal.c lends it, between two guards.
fn block(buffer: &[u8]) -> Vec<u8> {
    arena(buffer.len(), |lent| lent.copy_from_slice(buffer)).1
}

/// Whether a block, whose guards are those of its length, holds this buffer.
fn holds(block: &[u8], buffer: &[u8]) -> bool {
    let end = GUARD + buffer.len();
    let guard = |at: usize| (at * 37) as u8 ^ 0xa5;
    block[GUARD..end] == *buffer && (0..GUARD).chain(end..end + GUARD).all(|at| block[at] == guard(at))
}

/// The proved call's reply; what it changed of the buffer is taken over.
fn taken(call: &Call, left: usize, block: &mut [u8], replies: &mut Replies) -> Reply {
    let told = match call {
        Call::Last => Told::Entry(replies.one()),
        _ => Told::Answer(replies.one()),
    };
    changes(block, replies);
    let mut left = pattern(left);
    if !left.is_empty() {
        changes(&mut left, replies);
    }
    Reply { told, left }
}

/// One reply in words, with those bytes in which it and its block differ from the other.
fn words(one: &Reply, block: &[u8], other: &Reply, others: &[u8]) -> String {
    let [buffer, left] = [(block, others), (&one.left, &other.left)].map(|(of, other)| difference(of, other));
    format!("{:?}{BREAK}buffer, with guards of {GUARD}: {buffer}{BREAK}room or settings lent: {left}", one.told)
}

/// Takes over what a call changed: from where, up to where, and the bytes between.
fn changes(block: &mut [u8], replies: &mut Replies) {
    let mut number = || u32::from_le_bytes(replies.take(4).try_into().expect("four bytes")) as usize;
    let (from, to) = (number(), number());
    block[from..to].copy_from_slice(replies.take(to - from));
}

fn name(call: &Call) -> &'static str {
    match call {
        Call::Check => "esk_journal_check",
        Call::Last => "esk_journal_last",
        Call::Add { .. } => "esk_journal_add",
        Call::Drop { .. } => "esk_journal_drop",
        Call::Print { .. } => "esk_journal_print",
        Call::Replay { .. } => "esk_journal_replay",
    }
}

fn told(event: &Event) -> String {
    match event {
        Event::Put { at, byte } => format!("byte {at} made {byte}"),
        Event::Ask { end, call } => {
            let more = match call {
                Call::Check | Call::Last => String::new(),
                Call::Add { designator, text } => {
                    format!(" for {} {}", designator.escape_ascii(), tell::bytes(text))
                }
                Call::Drop { count } => format!(" of {count}"),
                Call::Print { room } => format!(" into {room}"),
                Call::Replay { designator } => format!(" for {}", designator.escape_ascii()),
            };
            format!("{} of {end} bytes{more}", name(call))
        }
    }
}
