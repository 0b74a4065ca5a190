//! Two texts in both orders, and a valid configuration that they are applied to.

use super::{counted, Held};
use crate::asked::Replies;
use crate::meet::uplink as meet;
use crate::ours::bytes_of;
use crate::ours::uplink::{CommuteAnswer, Settings};
use crate::second::commute::commute;
use crate::second::settings::{Configuration, MOST};
use crate::second::{config, join};
use crate::tally::{Outcome, Tally};
use crate::tell::{self, hex, BREAK};

pub struct Case {
    pub first: Vec<u8>,
    pub second: Vec<u8>,
    pub settings: Box<Settings>,
}

/// Whether accepted texts join to the same bytes in both orders, and whether they leave the same of a configuration.
fn both_orders(held: &Configuration, first: &[u8], second: &[u8]) -> [bool; 2] {
    let after = |texts: [&[u8]; 2]| {
        let (mut held, mut joined) = (*held, [0; MOST]);
        let length = join::join(texts[0], texts[1], &mut joined).expect("accepted texts join");
        for text in texts {
            config::apply(&mut held, text).expect("a valid configuration, and accepted texts");
        }
        (joined[..length].to_vec(), held)
    };
    let [one, other] = [after([first, second]), after([second, first])];
    [one.0 == other.0, one.1 == other.1]
}

impl super::Case for Case {
    const PROGRAM: &'static str = "answer_commute";

    fn question(&self, into: &mut Vec<u8>) {
        counted(into, &self.first);
        counted(into, &self.second);
        into.extend(bytes_of(&*self.settings));
    }

    /// Both orders are asked. Of accepted texts the yes or no is what the joins and the configurations of either program
    /// show: "the same configuration in both orders .. exactly when".
    fn hold(&self, replies: &mut Replies, tally: &mut Tally) -> Held {
        let second = commute(&self.first, &self.second);
        self.answered("esk_commute", replies.one(), meet::commutes(second))?;
        let turned: CommuteAnswer = replies.one();
        self.answered("esk_commute, the other way round", turned, meet::commutes(commute(&self.second, &self.first)))?;
        if let Ok(clash) = second {
            let [joins, applied] = [replies.take(1)[0], replies.take(1)[0]];
            let yes = u8::from(clash.none());
            self.answered("esk_join in both orders, and esk_apply: the same as yes or no", [joins, applied], [yes; 2])?;
            let own = both_orders(&meet::meant_settings(&self.settings), &self.first, &self.second);
            self.answered("the second program's own joins and configurations", own.map(u8::from), [yes; 2])?;
        }
        tally.count(match second {
            Ok(clash) if clash.none() => Outcome::Accepted,
            Ok(_) => Outcome::Clash,
            Err(fault) => Outcome::Refused(fault.refusal.code),
        });
        Ok(())
    }

    fn input(&self) -> String {
        let [first, second] = [&self.first, &self.second].map(|text| tell::bytes(text));
        let settings = tell::uplink::settings(&self.settings).join(BREAK);
        format!("first {first}{BREAK}second {second}{BREAK}{settings}")
    }

    fn words(&self) -> String {
        format!("commute {} {} {}", hex(&self.first), hex(&self.second), hex(bytes_of(&*self.settings)))
    }
}
