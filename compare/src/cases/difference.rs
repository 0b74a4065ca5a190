//! Two configurations and a room for the command that makes the first into the second.

use super::{arena, short, Held};
use crate::asked::Replies;
use crate::meet::uplink as meet;
use crate::ours::bytes_of;
use crate::ours::uplink::{Differing, Settings};
use crate::second::difference::difference;
use crate::tally::Tally;
use crate::tell::{self, hex, BREAK};

pub struct Case {
    pub settings: Box<[Settings; 2]>,
    pub room: usize,
}

impl super::Case for Case {
    const PROGRAM: &'static str = "answer_config";

    fn question(&self, into: &mut Vec<u8>) {
        into.push(3);
        self.settings.iter().for_each(|one| into.extend(bytes_of(one)));
        into.extend(short(self.room));
    }

    /// The answer, what the room holds afterwards, and of an accepted one whether our own apply of that command makes the
    /// first into the second and gives downlink digit 0.
    fn hold(&self, replies: &mut Replies, tally: &mut Tally) -> Held {
        let [first, other] = [0, 1].map(|index| meet::meant_settings(&self.settings[index]));
        let (second, left) = arena(self.room, |out| difference(&first, &other, out));
        let (got, want): (Differing, _) = (replies.one(), meet::differing(second));
        let ours = replies.take(left.len());
        if got != want || ours != left {
            let words = |answer, left| format!("{answer:?}{BREAK}lent {}", tell::bytes(left));
            return self.mismatch("esk_difference", words(got, ours), words(want, &left));
        }
        if second.is_ok() {
            self.answered("esk_apply of what esk_difference wrote, to the first", replies.take(1), &[1][..])?;
        }
        tally.answer(&second);
        Ok(())
    }

    fn input(&self) -> String {
        let [first, second] = [0, 1].map(|index| tell::uplink::settings(&self.settings[index]));
        let apart = tell::differing(second, first.clone());
        format!("room {}{BREAK}first {}{BREAK}second, where it differs: {apart}", self.room, first.join(BREAK))
    }

    fn words(&self) -> String {
        let [first, second] = [0, 1].map(|index| hex(bytes_of(&self.settings[index])));
        format!("difference {first} {second} {}", self.room)
    }
}
