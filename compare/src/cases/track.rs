//! A report's text, of which the track is asked.

use super::{counted, Held};
use crate::asked::Replies;
use crate::meet;
use crate::second::report;
use crate::second::track::track;
use crate::tally::{Outcome, Tally};
use crate::tell::{self, hex};

pub struct Case(pub Vec<u8>);

impl super::Case for Case {
    const PROGRAM: &'static str = "answer";

    fn question(&self, into: &mut Vec<u8>) {
        into.push(5);
        counted(into, &self.0);
    }

    /// The track, and beside it the answer of the check, which is also the track's. Told apart are tracks of which all is
    /// known.
    fn hold(&self, replies: &mut Replies, tally: &mut Tally) -> Held {
        let second = track(&self.0);
        let checked = meet::answer(report::check(&self.0).map(|()| 0));
        let want = meet::track(&second);
        if want.answer != checked {
            let (ours, second) = (format!("check: {checked:?}"), format!("track: {:?}", want.answer));
            return self.mismatch("the second program's own check and track", ours, second);
        }
        self.answered("esk_report_check", replies.one(), checked)?;
        self.answered("esk_report_track", replies.one(), want)?;
        tally.count(match second {
            Ok(track) if track.points[..track.count].iter().all(|point| point.known()) => Outcome::Accepted,
            Ok(_) => Outcome::Missing,
            Err(refusal) => Outcome::Refused(refusal.code),
        });
        Ok(())
    }

    fn input(&self) -> String {
        tell::bytes(&self.0)
    }

    fn words(&self) -> String {
        format!("track {}", hex(&self.0))
    }
}
