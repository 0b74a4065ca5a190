//! A log, and whether what it says of the database follows from what was sent.

use crate::order::{Key, Order};
use desk_compare::second::{command, join, settings::MOST};
use std::collections::{BTreeMap, HashMap, HashSet};

enum Kind {
    Add(String),
    Take,
}

/// What a client sent.
struct Sent {
    designator: String,
    kind: Kind,
}

/// What a client was told of it.
enum Outcome {
    Done(u64, String),
    None,
    Refused(u8, u32),
}

/// What the database committed.
struct Step {
    key: Key,
    kind: Kind,
    designator: String,
    text: String,
}

#[derive(Default)]
pub struct Told {
    sent: HashMap<Key, Sent>,
    outcomes: HashMap<Key, Outcome>,
    steps: BTreeMap<u64, Step>,
    handed: BTreeMap<u64, (String, String)>,
    waits: HashMap<String, String>,
}

#[derive(Default)]
struct Counts {
    adds: usize,
    takes: usize,
    none: usize,
    refused: usize,
    doubted: usize,
    doubted_kept: usize,
}

fn number<T: std::str::FromStr>(word: &str) -> Result<T, String> {
    word.parse().map_err(|_| format!("no number: {word}"))
}

impl Told {
    /// The log with one line more. Nothing is told twice.
    pub fn with(mut self, line: &str) -> Result<Told, String> {
        let words: Vec<&str> = line.split(' ').collect();
        let key = |client: &str, step: &str| Ok::<Key, String>((number(client)?, number(step)?));
        let fresh = match words[..] {
            ["sent", client, step, "add", of, text] => self
                .sent
                .insert(key(client, step)?, Sent { designator: of.into(), kind: Kind::Add(text.into()) })
                .is_none(),
            ["sent", client, step, "take", of] => {
                self.sent.insert(key(client, step)?, Sent { designator: of.into(), kind: Kind::Take }).is_none()
            }
            ["done", client, step, at, text] => {
                self.outcomes.insert(key(client, step)?, Outcome::Done(number(at)?, text.into())).is_none()
            }
            ["none", client, step] => self.outcomes.insert(key(client, step)?, Outcome::None).is_none(),
            ["refused", client, step, code, place] => {
                self.outcomes.insert(key(client, step)?, Outcome::Refused(number(code)?, number(place)?)).is_none()
            }
            ["step", at, "add", client, step, of, given, text] => {
                let kind = Kind::Add(given.into());
                let one = Step { key: key(client, step)?, kind, designator: of.into(), text: text.into() };
                self.steps.insert(number(at)?, one).is_none()
            }
            ["step", at, "take", client, step, of, text] => {
                let one = Step { key: key(client, step)?, kind: Kind::Take, designator: of.into(), text: text.into() };
                self.steps.insert(number(at)?, one).is_none()
            }
            ["handed", at, of, text] => self.handed.insert(number(at)?, (of.into(), text.into())).is_none(),
            ["waits", of, text] => self.waits.insert(of.into(), text.into()).is_none(),
            _ => return Err(format!("no line of a log: {line}")),
        };
        if fresh {
            Ok(self)
        } else {
            Err(format!("told twice: {line}"))
        }
    }

    /// What was counted, in words; or the first thing that does not follow.
    pub fn check(&self) -> Result<String, String> {
        let mut counts = Counts::default();
        let committed = self.each_was_sent()?;
        self.each_outcome_holds(&committed, &mut counts)?;
        let aircraft = self.each_text_is_the_join()?;
        self.each_none_can_be(&committed)?;
        for step in self.steps.values() {
            match step.kind {
                Kind::Add(_) => counts.adds += 1,
                Kind::Take => counts.takes += 1,
            }
        }
        Ok(format!(
            "{} adds and {} takings of {} aircraft follow from what was sent; {} takings found nothing, {} commands were refused; \
             {} steps were in doubt, of which {} had been committed; {} texts wait",
            counts.adds,
            counts.takes,
            aircraft,
            counts.none,
            counts.refused,
            counts.doubted,
            counts.doubted_kept,
            self.waits.len()
        ))
    }

    /// Every step that was committed is one that was sent, and none is there twice.
    fn each_was_sent(&self) -> Result<HashMap<Key, u64>, String> {
        let mut committed = HashMap::new();
        for (at, step) in &self.steps {
            let sent = self.sent.get(&step.key).ok_or_else(|| format!("step {at} was never sent"))?;
            let same = match (&sent.kind, &step.kind) {
                (Kind::Add(sent), Kind::Add(given)) => sent == given,
                (Kind::Take, Kind::Take) => true,
                _ => false,
            };
            if !same || sent.designator != step.designator {
                return Err(format!("step {at} is not what was sent"));
            }
            if let Some(first) = committed.insert(step.key, *at) {
                return Err(format!("steps {first} and {at} are the same one, committed twice"));
            }
        }
        Ok(committed)
    }

    /// What was acknowledged is there, what was refused is not; what was in doubt may be either.
    fn each_outcome_holds(&self, committed: &HashMap<Key, u64>, counts: &mut Counts) -> Result<(), String> {
        for (key, sent) in &self.sent {
            let at = committed.get(key);
            let who = format!("step {} of client {}", key.1, key.0);
            match (self.outcomes.get(key), at) {
                (Some(Outcome::Done(number, text)), Some(at)) => {
                    if number != at || self.steps[at].text != *text {
                        return Err(format!("{who} was acknowledged as another than step {at}"));
                    }
                }
                (Some(Outcome::Done(number, _)), None) => {
                    return Err(format!("{who} was acknowledged as step {number} and is lost"))
                }
                (Some(Outcome::None), None) => counts.none += 1,
                (Some(Outcome::Refused(code, place)), None) => {
                    counts.refused += 1;
                    refused_rightly(&sent.kind, *code, *place).map_err(|why| format!("{who}: {why}"))?
                }
                (Some(_), Some(at)) => return Err(format!("{who} changed nothing, and step {at} is committed")),
                (None, at) => {
                    counts.doubted += 1;
                    counts.doubted_kept += usize::from(at.is_some());
                }
            }
        }
        Ok(())
    }

    /// Every text that waited, was handed over or waits is the join of the commands since the last taking, by this program's
    /// own join. Gives the number of aircraft.
    fn each_text_is_the_join(&self) -> Result<usize, String> {
        let mut waiting: HashMap<&str, Vec<u8>> = HashMap::new();
        let mut handed: HashMap<&str, Vec<&str>> = HashMap::new();
        let mut aircraft = HashSet::new();
        for (at, step) in &self.steps {
            let of = step.designator.as_str();
            aircraft.insert(of);
            let due = match &step.kind {
                Kind::Add(given) => {
                    let joined =
                        joined(waiting.get(of), given.as_bytes()).map_err(|why| format!("step {at}: {why}"))?;
                    waiting.insert(of, joined.clone());
                    Some(joined)
                }
                Kind::Take => {
                    handed.entry(of).or_default().push(&step.text);
                    waiting.remove(of)
                }
            };
            if due.as_deref() != Some(step.text.as_bytes()) {
                let due = due.map_or("nothing".into(), |text| String::from_utf8_lossy(&text).into_owned());
                return Err(format!("step {at} of {of} left {}, and {due} was due", step.text));
            }
        }
        self.board_is(&waiting)?;
        self.journal_is(handed)?;
        Ok(aircraft.len())
    }

    /// Of each taking that found nothing: at some moment while it ran nothing can have waited.
    fn each_none_can_be(&self, committed: &HashMap<Key, u64>) -> Result<(), String> {
        let mut order = Order::of_clients(committed);
        for (at, step) in &self.steps {
            order.step(*at, &step.designator, matches!(step.kind, Kind::Take));
        }
        for (key, outcome) in &self.outcomes {
            let Some(sent) = self.sent.get(key) else { continue };
            if matches!(outcome, Outcome::None) && !order.may_find_nothing(*key, &sent.designator) {
                let of = &sent.designator;
                return Err(format!("step {} of client {} found nothing for {of}, and something waited", key.1, key.0));
            }
        }
        Ok(())
    }

    fn board_is(&self, due: &HashMap<&str, Vec<u8>>) -> Result<(), String> {
        for (of, text) in &self.waits {
            if due.get(of.as_str()).map(Vec::as_slice) != Some(text.as_bytes()) {
                return Err(format!("{text} waits for {of} at the end, and is not what was due"));
            }
        }
        match due.keys().find(|of| !self.waits.contains_key(**of)) {
            Some(of) => Err(format!("nothing waits for {of} at the end, and something was due")),
            None => Ok(()),
        }
    }

    /// Each aircraft's texts in the journal, in the journal's order, are those of its takings.
    fn journal_is(&self, mut due: HashMap<&str, Vec<&str>>) -> Result<(), String> {
        let mut journal: HashMap<&str, Vec<&str>> = HashMap::new();
        for (of, text) in self.handed.values() {
            journal.entry(of).or_default().push(text);
        }
        for (of, texts) in journal {
            if due.remove(of) != Some(texts) {
                return Err(format!("the journal of {of} is not what was taken"));
            }
        }
        match due.keys().next() {
            Some(of) => Err(format!("the journal has nothing of {of}, for which something was taken")),
            None => Ok(()),
        }
    }
}

fn joined(first: Option<&Vec<u8>>, second: &[u8]) -> Result<Vec<u8>, String> {
    command::check(second).map_err(|refusal| format!("accepted, though it is refused with {}", refusal.code))?;
    let Some(first) = first else { return Ok(second.to_vec()) };
    let mut out = vec![0; MOST];
    let length = join::join(first, second, &mut out).map_err(|_| "does not join".to_string())?;
    out.truncate(length);
    Ok(out)
}

fn refused_rightly(kind: &Kind, code: u8, place: u32) -> Result<(), String> {
    let Kind::Add(text) = kind else { return Err("a taking was refused".into()) };
    match command::check(text.as_bytes()) {
        Err(refusal) if refusal.code == code && refusal.place == place => Ok(()),
        Err(refusal) => Err(format!("refused with {code} at {place}, not {} at {}", refusal.code, refusal.place)),
        Ok(()) => Err(format!("refused with {code}, though it is accepted")),
    }
}

#[cfg(test)]
mod tests {
    use super::Told;

    const FIRST: &str = "AWR041999999000400000/151/";
    const SECOND: &str = "AWR040999999000400000/301/";

    /// Two adds and a taking, the texts as they are due.
    fn log() -> Vec<String> {
        [
            format!("sent 1 1 add AU0001 {FIRST}"),
            format!("done 1 1 7 {FIRST}"),
            format!("sent 2 1 add AU0001 {SECOND}"),
            format!("done 2 1 9 {SECOND}"),
            "sent 1 2 take AU0001".into(),
            format!("done 1 2 12 {SECOND}"),
            "sent 1 3 take AU0001".into(),
            "none 1 3".into(),
            "sent 1 4 add AU0002 AWR04".into(),
            "refused 1 4 8 5".into(),
            format!("sent 1 5 add AU0003 {FIRST}"),
            format!("step 7 add 1 1 AU0001 {FIRST} {FIRST}"),
            format!("step 9 add 2 1 AU0001 {SECOND} {SECOND}"),
            format!("step 12 take 1 2 AU0001 {SECOND}"),
            format!("handed 3 AU0001 {SECOND}"),
        ]
        .into()
    }

    fn verdict(lines: &[String]) -> Result<String, String> {
        lines.iter().try_fold(Told::default(), |told, line| told.with(line)).and_then(|told| told.check())
    }

    /// The log with the line that begins so made another, or taken out.
    fn other(begins: &str, line: Option<&str>) -> Result<String, String> {
        let mut lines = log();
        let at = lines.iter().position(|line| line.starts_with(begins)).expect("a line");
        match line {
            Some(line) => lines[at] = line.replace("FIRST", FIRST).replace("SECOND", SECOND),
            None => drop(lines.remove(at)),
        }
        verdict(&lines)
    }

    #[test]
    fn a_log_holds() {
        let words = verdict(&log()).expect("it follows");
        assert!(words.starts_with("2 adds and 1 takings of 1 aircraft"), "{words}");
        assert!(words.contains("1 steps were in doubt, of which 0"), "{words}");
    }

    #[test]
    fn faults_are_found() {
        for (begins, line) in [
            ("step 9", Some("step 9 add 2 1 AU0001 SECOND FIRST")), // joined the wrong way round
            ("step 9", None),                                       // acknowledged and lost
            ("handed", None),                                       // taken and not journalled
            ("handed", Some("handed 3 AU0001 FIRST")),
            ("sent 1 1", None), // never sent
            ("sent 1 5", Some("waits AU0003 FIRST")),
            ("none", Some("done 1 3 13 FIRST")),
            ("refused", Some("refused 1 4 8 6")),
            ("step 12", Some("step 12 take 1 3 AU0001 SECOND")),
        ] {
            assert!(other(begins, line).is_err(), "{begins}: {line:?}");
        }
    }

    /// A taking that found nothing while a command waited: one that its own client had added, or another that had gone on.
    #[test]
    fn a_blind_taking_is_found() {
        let added = |client, step, at, of| {
            [
                format!("sent {client} {step} add {of} {FIRST}"),
                format!("done {client} {step} {at} {FIRST}"),
                format!("step {at} add {client} {step} {of} {FIRST} {FIRST}"),
                format!("waits {of} {FIRST}"),
            ]
        };
        let taken = ["sent 1 9 take AU0001".to_string(), "none 1 9".to_string()];
        let own = [&added(1, 1, 7, "AU0001")[..], &taken].concat();
        assert!(verdict(&own).expect_err("something waited").contains("found nothing"));
        let others = [added(2, 1, 7, "AU0001"), added(2, 2, 8, "AU0002"), added(1, 1, 9, "AU0003")].concat();
        assert!(verdict(&[&others[..], &taken].concat()).expect_err("something waited").contains("found nothing"));
        // Not known to be committed by then, since its client did nothing behind it.
        let maybe = [added(2, 1, 7, "AU0001"), added(1, 1, 9, "AU0003")].concat();
        assert!(verdict(&[&maybe[..], &taken].concat()).is_ok());
    }

    #[test]
    fn a_doubled_step_is_found() {
        let mut lines = log();
        lines.push(format!("step 10 add 2 1 AU0001 {SECOND} {SECOND}"));
        assert!(verdict(&lines).expect_err("it is there twice").contains("committed twice"));
    }
}
