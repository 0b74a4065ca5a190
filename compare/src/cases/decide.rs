//! Decisions: a configuration and questions about it.

use super::{short, Held};
use crate::asked::Replies;
use crate::meet::uplink as meet;
use crate::ours::bytes_of;
use crate::ours::uplink::{Decided, Explained, Settings};
use crate::second::decide::{self, decide, Decision};
use crate::second::Refusal;
use crate::tally::{Outcome, Tally};
use crate::tell::{self, hex, BREAK};

pub struct Case {
    pub settings: Box<Settings>,
    pub questions: Vec<Question>,
}

/// The airfield is the first `length` of its bytes.
#[derive(Clone, Copy, Debug)]
pub struct Question {
    pub phase: u8,
    pub hour: u8,
    pub latitude: i32,
    pub longitude: i32,
    pub airfield: [u8; 6],
    pub length: u8,
}

impl Question {
    pub fn airfield(&self) -> &[u8] {
        &self.airfield[..usize::from(self.length)]
    }

    pub fn meant(&self) -> decide::Question<'_> {
        let Question { phase, hour, latitude, longitude, .. } = *self;
        decide::Question { phase, latitude, longitude, hour, airfield: self.airfield() }
    }
}

/// How a question came out.
pub fn outcome(answer: Result<Decision, Refusal>) -> Outcome {
    match answer {
        Ok(Decision::Silent) => Outcome::Silent,
        Ok(Decision::Routine) => Outcome::Routine,
        Ok(Decision::Scheme) => Outcome::Scheme,
        Err(refusal) => Outcome::Refused(refusal.code),
    }
}

impl super::Case for Case {
    const PROGRAM: &'static str = "answer_decide";

    fn question(&self, into: &mut Vec<u8>) {
        into.extend(bytes_of(&*self.settings));
        into.extend(short(self.questions.len()));
        for question in &self.questions {
            into.extend([question.phase, question.hour]);
            into.extend(question.latitude.to_le_bytes());
            into.extend(question.longitude.to_le_bytes());
            into.push(question.length);
            into.extend(question.airfield);
        }
    }

    fn hold(&self, replies: &mut Replies, tally: &mut Tally) -> Held {
        let held = meet::meant_settings(&self.settings);
        for question in &self.questions {
            let second = decide(&held, &question.meant());
            let (_why, got): (Explained, Decided) = (replies.one(), replies.one());
            let want = meet::decided(second);
            if got != want {
                return self.alone(question).answered("esk_decide", got, want);
            }
            tally.count(outcome(second));
        }
        Ok(())
    }

    fn input(&self) -> String {
        let questions: Vec<String> = self.questions.iter().map(|question| format!("{:?}", question.meant())).collect();
        format!("{}{BREAK}{}", questions.join(BREAK), tell::uplink::settings(&self.settings).join(BREAK))
    }

    fn parts(&self) -> Vec<Case> {
        self.questions.iter().map(|question| self.alone(question)).collect()
    }

    /// Of a case with one question.
    fn words(&self) -> String {
        let Question { phase, hour, latitude, longitude, .. } = self.questions[0];
        let airfield = hex(self.questions[0].airfield());
        format!("decide {} {phase} {latitude} {longitude} {hour} {airfield}", hex(bytes_of(&*self.settings)))
    }
}

impl Case {
    /// The case of one of the questions.
    pub fn alone(&self, question: &Question) -> Case {
        Case { settings: self.settings.clone(), questions: vec![*question] }
    }
}
