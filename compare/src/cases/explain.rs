//! Decisions and why: the questions of a decision, asked of both calls.

use super::{decide, Held};
use crate::asked::Replies;
use crate::meet::uplink as meet;
use crate::ours::uplink::{Decided, Explained};
use crate::second::decide::explain;
use crate::tally::Tally;

pub struct Case {
    pub of: decide::Case,
}

impl From<decide::Case> for Case {
    fn from(of: decide::Case) -> Case {
        Case { of }
    }
}

impl super::Case for Case {
    const PROGRAM: &'static str = <decide::Case as super::Case>::PROGRAM;

    fn question(&self, into: &mut Vec<u8>) {
        self.of.question(into);
    }

    /// The reply to a question is esk_explain's answer and then esk_decide's: all that the two share is alike.
    fn hold(&self, replies: &mut Replies, tally: &mut Tally) -> Held {
        let held = meet::meant_settings(&self.of.settings);
        for question in &self.of.questions {
            let second = explain(&held, &question.meant());
            let want = meet::explained(second);
            let (got, decided): (Explained, Decided) = (replies.one(), replies.one());
            if got != want {
                return Case::from(self.of.alone(question)).answered("esk_explain", got, want);
            }
            let shared = Decided { place: got.place, code: got.code, decision: got.decision, ..Default::default() };
            if decided != shared {
                return Case::from(self.of.alone(question)).answered("esk_decide beside esk_explain", decided, shared);
            }
            tally.count(decide::outcome(second.map(|why| why.decision)));
            if second.is_ok() {
                tally.reason(want.reason, want.number);
            }
        }
        Ok(())
    }

    fn input(&self) -> String {
        self.of.input()
    }

    fn parts(&self) -> Vec<Case> {
        self.of.parts().into_iter().map(Case::from).collect()
    }

    /// As a decision's, under another name.
    fn words(&self) -> String {
        self.of.words().replacen("decide", "explain", 1)
    }
}
