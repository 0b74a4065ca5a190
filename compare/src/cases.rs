//! One case each: what to ask the proved calls, and their replies held against the second program, every member of both
//! answers and every byte that was lent. Each group of calls has its own kind of case and its own C program.

pub mod board;
pub mod command;
pub mod commute;
pub mod config;
pub mod decide;
pub mod difference;
pub mod explain;
pub mod gust;
pub mod join;
pub mod journal;
pub mod report;
pub mod section;
pub mod sheet;
pub mod track;

use crate::asked::Replies;
use crate::ours::Answer;
use crate::tally::Tally;
use crate::tell::{self, BREAK};

pub trait Case {
    /// The program in host/test that makes the calls.
    const PROGRAM: &'static str;

    /// The question in the bytes that the program reads.
    fn question(&self, into: &mut Vec<u8>);

    /// Takes the replies to this case, holds them against the second program, and counts how they came out.
    fn hold(&self, replies: &mut Replies, tally: &mut Tally) -> Held;

    /// What the case hands to the calls, to be read.
    fn input(&self) -> String;

    /// The words behind `case` on the comparison's command line that repeat it.
    fn words(&self) -> String;

    /// A case of many calls as cases of one each, as the calls before left things; none where it is one already.
    fn parts(&self) -> Vec<Self>
    where
        Self: Sized,
    {
        Vec::new()
    }

    fn mismatch<T>(&self, call: &'static str, ours: String, second: String) -> Result<T, Box<Mismatch>> {
        Err(Box::new(Mismatch { call, input: self.input(), ours, second, words: self.words() }))
    }

    /// The answer of a writer and all that it left in and round the room that it was lent.
    fn written(&self, call: &'static str, want: Answer, left: &[u8], replies: &mut Replies) -> Held {
        let got: Answer = replies.one();
        let ours = replies.take(left.len());
        if got != want || ours != left {
            let words = |answer, left| format!("{answer:?}{BREAK}lent {}", tell::bytes(left));
            return self.mismatch(call, words(got, ours), words(want, left));
        }
        Ok(())
    }

    /// An answer of which every member is told.
    fn answered<T: PartialEq + std::fmt::Debug>(&self, call: &'static str, got: T, want: T) -> Held {
        if got != want {
            return self.mismatch(call, format!("{got:?}"), format!("{want:?}"));
        }
        Ok(())
    }
}

/// Two answers that differ: the call, what it was handed, both answers, and the words that repeat the case.
#[derive(Debug)]
pub struct Mismatch {
    pub call: &'static str,
    pub input: String,
    pub ours: String,
    pub second: String,
    pub words: String,
}

pub type Held = Result<(), Box<Mismatch>>;

/// What is lent for writing has a guard on both sides; all of it is compared afterwards.
const GUARD: usize = 8;

/// The pattern that host/test/answer.h fills what it lends with, from a guard's first byte on.
fn pattern(length: usize) -> Vec<u8> {
    (0..length).map(|index| (index * 37) as u8 ^ 0xa5).collect()
}

/// What the second program leaves in a room, and the guards round it.
fn arena<T>(room: usize, call: impl FnOnce(&mut [u8]) -> T) -> (T, Vec<u8>) {
    let mut arena = pattern(room + 2 * GUARD);
    let answer = call(&mut arena[GUARD..GUARD + room]);
    (answer, arena)
}

/// A number of a question, in two bytes.
fn short(number: usize) -> [u8; 2] {
    u16::try_from(number).expect("lengths and rooms of questions have two bytes").to_le_bytes()
}

/// A byte string of a question, behind its length.
fn counted(into: &mut Vec<u8>, bytes: &[u8]) {
    into.extend(short(bytes.len()));
    into.extend(bytes);
}
