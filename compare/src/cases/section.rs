//! A command's text and numbers of sections that are asked of it.

use super::{counted, Held};
use crate::asked::Replies;
use crate::meet::uplink as meet;
use crate::ours::uplink::Part;
use crate::second::join;
use crate::second::part::find;
use crate::tally::{Outcome, Tally};
use crate::tell::{self, hex, BREAK};

pub struct Case {
    pub text: Vec<u8>,
    pub numbers: Vec<u8>,
}

impl super::Case for Case {
    const PROGRAM: &'static str = "answer_section";

    fn question(&self, into: &mut Vec<u8>) {
        counted(into, &self.text);
        counted(into, &self.numbers);
    }

    /// The reply to a number is esk_section's answer, and where the header's esk_part_of finds the bytes. An accepted
    /// text's part is also the section that the second program's own full walk met.
    fn hold(&self, replies: &mut Replies, tally: &mut Tally) -> Held {
        let whole = join::parts(&self.text).ok();
        for &number in &self.numbers {
            let second = find(number, &self.text);
            let (got, place): (Part, u64) = (replies.one(), replies.one());
            let want = meet::part(&second);
            if got != want {
                return self.alone(number).answered("esk_section", got, want);
            }
            let pointed = if want.length > 0 { want.place as u64 } else { u64::MAX };
            if place != pointed {
                return self.alone(number).answered("esk_part_of", place, pointed);
            }
            let met = whole.as_ref().filter(|_| (2..=9).contains(&number)).map(|whole| whole.span(number.into()));
            if met.as_ref().is_some_and(|met| second.as_ref() != Ok(met)) {
                let (ours, second) = (format!("find: {second:?}"), format!("the full walk: {met:?}"));
                return self.alone(number).mismatch("the second program's own finder and full walk", ours, second);
            }
            tally.count(match second {
                Ok(part) if part.is_empty() => Outcome::Missing,
                Ok(_) => Outcome::Accepted,
                Err(refusal) => Outcome::Refused(refusal.code),
            });
        }
        Ok(())
    }

    fn input(&self) -> String {
        format!("sections {:?} of{BREAK}{}", self.numbers, tell::bytes(&self.text))
    }

    /// Of a case with one number.
    fn words(&self) -> String {
        format!("section {} {}", self.numbers[0], hex(&self.text))
    }

    fn parts(&self) -> Vec<Case> {
        self.numbers.iter().map(|number| self.alone(*number)).collect()
    }
}

impl Case {
    /// The case of one of the numbers.
    fn alone(&self, number: u8) -> Case {
        Case { text: self.text.clone(), numbers: vec![number] }
    }
}
