//! Two texts joined into a room.

use super::{arena, counted, short, Held};
use crate::asked::Replies;
use crate::meet::uplink as meet;
use crate::second::join;
use crate::tally::Tally;
use crate::tell::{self, hex, BREAK};

pub struct Case {
    pub first: Vec<u8>,
    pub second: Vec<u8>,
    pub room: usize,
}

impl super::Case for Case {
    const PROGRAM: &'static str = "answer_join";

    fn question(&self, into: &mut Vec<u8>) {
        counted(into, &self.first);
        counted(into, &self.second);
        into.extend(short(self.room));
    }

    fn hold(&self, replies: &mut Replies, tally: &mut Tally) -> Held {
        let (second, left) = arena(self.room, |out| join::join(&self.first, &self.second, out));
        self.written("esk_join", meet::joined(second), &left, replies)?;
        tally.answer(&second.map_err(|fault| fault.refusal));
        Ok(())
    }

    fn input(&self) -> String {
        let [first, second] = [&self.first, &self.second].map(|text| tell::bytes(text));
        format!("room {}{BREAK}first {first}{BREAK}second {second}", self.room)
    }

    fn words(&self) -> String {
        format!("join {} {} {}", hex(&self.first), hex(&self.second), self.room)
    }
}
