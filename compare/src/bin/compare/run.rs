//! A run: its families, what each compared, and the first mismatch.

use crate::queue::Queue;
use desk_compare::cases::{Case, Mismatch};
use desk_compare::random::Random;
use std::process::exit;
use std::time::Instant;

pub struct Options {
    pub seed: u64,
    pub long: bool,
    pub only: Option<String>,
    /// Groups of families, unless one family alone is asked for.
    pub groups: Vec<String>,
}

pub struct Run {
    options: Options,
    began: Instant,
    total: u64,
    families: u64,
}

pub type Done = Result<(), Box<Mismatch>>;

/// Where the words of a case too long for a command line are kept.
const LONG_CASE: &str = "target/mismatch";

impl Run {
    pub fn new(options: Options) -> Run {
        Run { options, began: Instant::now(), total: 0, families: 0 }
    }

    /// Whether a group's families are to be looked at.
    pub fn group(&self, name: &str) -> bool {
        self.options.only.is_some() || self.options.groups.iter().any(|group| group == name || group == "all")
    }

    /// So many turns, or twenty times as many in a long run.
    pub fn turns(&self, turns: u64) -> u64 {
        if self.options.long {
            20 * turns
        } else {
            turns
        }
    }

    /// Runs a family, unless another one alone was asked for, and prints one line on it.
    pub fn family<C: Case>(&mut self, name: &str, says: &str, body: impl FnOnce(&mut Random, &mut Queue<C>) -> Done) {
        if self.options.only.as_deref().is_some_and(|only| only != name) {
            return;
        }
        let mut random = Random::new(self.options.seed, name);
        let mut queue = Queue::start().unwrap_or_else(|why| {
            println!("{why}");
            exit(2);
        });
        let done = body(&mut random, &mut queue).and_then(|()| queue.finish());
        let tally = queue.tally();
        if let Err(mismatch) = done {
            println!("MISMATCH in {name}, after {} cases alike: {}", tally.total(), mismatch.call);
            tell(&mismatch);
            self.repeat(name, &mismatch);
            exit(1);
        }
        println!("{name}: {says}: {tally}");
        self.total += tally.total();
        self.families += 1;
    }

    fn repeat(&self, name: &str, mismatch: &Mismatch) {
        let long = if self.options.long { " --long" } else { "" };
        println!("  this case: make compare ARGS='case {}'", short(&mismatch.words));
        println!("  the run  : make compare ARGS='--seed {}{long} --only {name}'", self.options.seed);
    }

    pub fn end(&self) {
        if self.families == 0 {
            println!(
                "no such family or group: {}",
                self.options.only.as_deref().unwrap_or(&self.options.groups.join(","))
            );
            exit(2);
        }
        let seconds = self.began.elapsed().as_secs_f64();
        println!(
            "compare: {} cases in {} families, all alike (seed {}, {seconds:.1} s)",
            self.total, self.families, self.options.seed
        );
    }
}

/// The words of a case, or the file that they were put into.
fn short(words: &str) -> String {
    if words.len() > 4000 && std::fs::write(LONG_CASE, words).is_ok() {
        return format!("@{LONG_CASE}");
    }
    words.to_string()
}

pub fn tell(mismatch: &Mismatch) {
    println!("  input    : {}", mismatch.input);
    println!("  ours     : {}", mismatch.ours);
    println!("  second   : {}", mismatch.second);
}

/// One case by itself.
pub fn one<C: Case>(case: C) -> Result<i32, String> {
    let mut queue = Queue::start()?;
    let held = queue.case(case).and_then(|()| queue.finish());
    let tally = queue.tally();
    Ok(match held {
        Ok(()) => {
            println!("{tally}");
            0
        }
        Err(mismatch) => {
            println!("MISMATCH: {}", mismatch.call);
            tell(&mismatch);
            1
        }
    })
}
