//! The configuration: reset, validity, and commands applied in place.

use super::{counted, pattern, Case as _, Held, GUARD};
use crate::asked::Replies;
use crate::meet::{answer, uplink as meet};
use crate::ours::uplink::{Applied, Settings};
use crate::ours::{bytes_of, Answer};
use crate::second::config;
use crate::tally::{Outcome, Tally};
use crate::tell::{self, hex, BREAK};

pub enum Case {
    Reset,
    /// A configuration: whether it is valid, and what a text's applying answers and leaves of it.
    Apply {
        settings: Box<Settings>,
        text: Vec<u8>,
    },
}

impl super::Case for Case {
    const PROGRAM: &'static str = "answer_config";

    fn question(&self, into: &mut Vec<u8>) {
        match self {
            Case::Reset => into.push(1),
            Case::Apply { settings, text } => {
                into.push(2);
                into.extend(bytes_of(&**settings));
                counted(into, text);
            }
        }
    }

    fn hold(&self, replies: &mut Replies, tally: &mut Tally) -> Held {
        match self {
            Case::Reset => {
                let (got, want): (Settings, _) = (replies.one(), meet::configuration(&config::reset()));
                tally.count(Outcome::Accepted);
                self.same("esk_reset", &got, &want)
            }
            Case::Apply { settings, text } => self.apply(settings, text, replies, tally),
        }
    }

    fn input(&self) -> String {
        match self {
            Case::Reset => "nothing".to_string(),
            Case::Apply { settings, text } => {
                format!("{}{BREAK}text {}", tell::uplink::settings(settings).join(BREAK), tell::bytes(text))
            }
        }
    }

    fn words(&self) -> String {
        match self {
            Case::Reset => "reset".to_string(),
            Case::Apply { settings, text } => format!("apply {} {}", hex(bytes_of(&**settings)), hex(text)),
        }
    }
}

impl Case {
    fn apply(&self, settings: &Settings, text: &[u8], replies: &mut Replies, tally: &mut Tally) -> Held {
        let mut held = meet::meant_settings(settings);
        let valid: Answer = replies.one();
        self.answered("esk_settings_valid", valid, answer(config::valid(&held).map(|()| 0)))?;
        let second = config::apply(&mut held, text);
        let got: Applied = replies.one();
        self.answered("esk_apply", got, meet::applied(second))?;
        let guards = pattern(2 * GUARD + size_of::<Settings>());
        let before = replies.take(GUARD);
        self.same("esk_apply: what it leaves", &replies.one(), &meet::configuration(&held))?;
        let after = replies.take(GUARD);
        let round = [before, after].concat();
        let want = [&guards[..GUARD], &guards[guards.len() - GUARD..]].concat();
        if round != want {
            return self.mismatch("esk_apply: round the configuration", hex(&round), hex(&want));
        }
        if second.is_ok() && config::valid(&held).is_err() {
            return self.mismatch("the second program's own apply", "valid".to_string(), format!("{held:?}"));
        }
        tally.answer(&second);
        Ok(())
    }

    fn same(&self, call: &'static str, got: &Settings, want: &Settings) -> Held {
        if got != want {
            let words = |one, other| tell::differing(tell::uplink::settings(one), tell::uplink::settings(other));
            return self.mismatch(call, words(got, want), words(want, got));
        }
        Ok(())
    }
}
