//! What was compared, by outcome.

use crate::second::Refusal;
use std::fmt;

/// How a case came out on both sides: accepted, with a missing figure, each decision and what clashes told apart, or
/// refused.
#[derive(Clone, Copy, Debug, PartialEq, Eq)]
pub enum Outcome {
    Accepted,
    Missing,
    Silent,
    Routine,
    Scheme,
    Clash,
    Refused(u8),
}

const LABELS: [&str; 6] = ["accepted", "missing", "silent", "routine", "scheme", "clash"];

/// The reasons of esk_explain, each with the numbers that it goes with: boxes, flags, sections, or none.
const REASONS: [(usize, &[usize]); 9] = [
    (1, &[0]),
    (2, &[0]),
    (3, &[1, 2, 3, 4, 5, 6, 7, 8, 9, 10, 11, 12, 13, 14, 15, 16]),
    (4, &[0]),
    (5, &[5, 6, 7]),
    (6, &[3, 6, 8]),
    (7, &[5, 6, 7]),
    (8, &[0]),
    (9, &[0]),
];

#[derive(Default)]
pub struct Tally {
    /// Those of the labels, then codes 1 to 14.
    counts: [u64; LABELS.len() + 14],
    /// Those of each reason with each number.
    reasons: [[u64; 17]; 10],
}

impl Tally {
    pub fn count(&mut self, outcome: Outcome) {
        let at = match outcome {
            Outcome::Accepted => 0,
            Outcome::Missing => 1,
            Outcome::Silent => 2,
            Outcome::Routine => 3,
            Outcome::Scheme => 4,
            Outcome::Clash => 5,
            Outcome::Refused(code) => LABELS.len() - 1 + usize::from(code),
        };
        self.counts[at] += 1;
    }

    /// Counts an answer that is accepted or refused.
    pub fn answer<T>(&mut self, answer: &Result<T, Refusal>) {
        self.count(match answer {
            Ok(_) => Outcome::Accepted,
            Err(refusal) => Outcome::Refused(refusal.code),
        });
    }

    /// Counts a reason beside its outcome.
    pub fn reason(&mut self, reason: u8, number: u8) {
        self.reasons[usize::from(reason)][usize::from(number)] += 1;
    }

    /// Every reason with every number that was not met, and every refusal of an explanation that was not.
    pub fn unmet(&self) -> Vec<String> {
        let numbers = REASONS.iter().flat_map(|(reason, numbers)| numbers.iter().map(|number| (*reason, *number)));
        let reasons = numbers.filter(|(reason, number)| self.reasons[*reason][*number] == 0);
        let codes = [4, 5, 12].into_iter().filter(|code| self.counts[LABELS.len() - 1 + code] == 0);
        let words = reasons.map(|(reason, number)| format!("reason {reason} number {number}"));
        words.chain(codes.map(|code| format!("code {code}"))).collect()
    }

    /// A reason that was met: how often, and with how many of its numbers where it has several.
    fn told(&self, reason: usize, numbers: &[usize]) -> Option<String> {
        let counts = numbers.iter().map(|number| self.reasons[reason][*number]).filter(|count| *count > 0);
        let (met, count) = counts.fold((0, 0), |(met, sum), count| (met + 1, sum + count));
        match (met, numbers.len()) {
            (0, _) => None,
            (_, 1) => Some(format!("{reason}: {count}")),
            (_, all) => Some(format!("{reason}: {count} with {met} of {all} numbers")),
        }
    }

    pub fn total(&self) -> u64 {
        self.counts.iter().sum()
    }
}

impl fmt::Display for Tally {
    fn fmt(&self, to: &mut fmt::Formatter) -> fmt::Result {
        let label = |at: usize| {
            LABELS.get(at).map_or_else(|| format!("code {}", at + 1 - LABELS.len()), |label| label.to_string())
        };
        let counts = self.counts.iter().enumerate().filter(|(_, count)| **count > 0);
        let parts: Vec<String> = counts.map(|(at, count)| format!("{count} {}", label(at))).collect();
        write!(to, "{} alike ({})", self.total(), parts.join(", "))?;
        let parts: Vec<String> = REASONS.iter().filter_map(|(reason, numbers)| self.told(*reason, numbers)).collect();
        if parts.is_empty() {
            return Ok(());
        }
        write!(to, "; reasons {}", parts.join(", "))
    }
}
