//! What an aircraft of a row felt.

use super::Held;
use crate::asked::Replies;
use crate::meet;
use crate::second::gust::{gust, Felt};
use crate::tally::Tally;

#[derive(Clone, Copy)]
pub struct Case {
    pub row: u32,
    pub felt: Felt,
}

impl super::Case for Case {
    const PROGRAM: &'static str = "answer_gust";

    fn question(&self, into: &mut Vec<u8>) {
        let Felt { height, mass, acceleration, speed } = self.felt;
        for number in [self.row, height as u32, mass, acceleration, speed] {
            into.extend(number.to_le_bytes());
        }
    }

    fn hold(&self, replies: &mut Replies, tally: &mut Tally) -> Held {
        let second = gust(self.row, &self.felt);
        self.answered("esk_gust", replies.one(), meet::gust(second))?;
        tally.answer(&second);
        Ok(())
    }

    fn input(&self) -> String {
        format!("row {}, {:?}", self.row, self.felt)
    }

    fn words(&self) -> String {
        let Felt { height, mass, acceleration, speed } = self.felt;
        format!("gust {} {height} {mass} {acceleration} {speed}", self.row)
    }
}
