//! Cases on their way to the proved calls: gathered into batches, one batch asked while the next is gathered.

use crate::run::Done;
use desk_compare::asked::{Asked, Replies};
use desk_compare::cases::{Case, Mismatch};
use desk_compare::tally::Tally;
use std::process::exit;

/// Bytes of questions that make a batch.
const BATCH: usize = 1 << 18;

pub struct Queue<C: Case> {
    asked: Asked,
    /// Cases that are gathered, and their questions.
    cases: Vec<C>,
    questions: Vec<u8>,
    /// Cases that are asked and not answered.
    under_way: Vec<C>,
    tally: Tally,
}

impl<C: Case> Queue<C> {
    pub fn start() -> Result<Queue<C>, String> {
        let asked = Asked::start(C::PROGRAM)?;
        let (cases, questions, under_way) = (Vec::new(), Vec::new(), Vec::new());
        Ok(Queue { asked, cases, questions, under_way, tally: Tally::default() })
    }

    /// Puts a case in. A mismatch may be that of an earlier case.
    pub fn case(&mut self, case: C) -> Done {
        case.question(&mut self.questions);
        self.cases.push(case);
        if self.questions.len() >= BATCH {
            self.turn()?;
        }
        Ok(())
    }

    /// Waits until all cases are held against their answers.
    pub fn finish(&mut self) -> Done {
        self.turn()?;
        self.turn()
    }

    /// What no case so far came out as: reasons with their numbers, and the refusals of explanations.
    pub fn unmet(&mut self) -> Result<Vec<String>, Box<Mismatch>> {
        self.finish()?;
        Ok(self.tally.unmet())
    }

    /// What was found alike since the last time.
    pub fn tally(&mut self) -> Tally {
        std::mem::take(&mut self.tally)
    }

    /// Holds the cases under way against their answers, and asks those that were gathered.
    fn turn(&mut self) -> Done {
        if !self.under_way.is_empty() {
            let Ok(replies) = self.asked.replies() else {
                return self.fatal_case();
            };
            hold(&self.under_way, &replies, &mut self.tally)?;
        }
        self.under_way = std::mem::take(&mut self.cases);
        let questions = std::mem::take(&mut self.questions);
        if !self.under_way.is_empty() && self.asked.ask(&questions).is_err() {
            return self.fatal_case();
        }
        Ok(())
    }

    /// The program that makes the calls ended in a batch: asks its cases one by one, to find which ended it.
    fn fatal_case(&mut self) -> Done {
        for case in &self.under_way {
            if let Err(why) = alone(case, &mut self.tally)? {
                for part in case.parts() {
                    if let Err(why) = alone(&part, &mut self.tally)? {
                        return ended(&part, why);
                    }
                }
                return ended(case, why);
            }
        }
        println!("the program that calls ours ended in a batch, and in none of its cases alone");
        exit(1);
    }
}

/// Asks a case by itself; the inner error says that the program ended.
fn alone<C: Case>(case: &C, tally: &mut Tally) -> Result<Result<(), String>, Box<Mismatch>> {
    let mut asked = start_again(C::PROGRAM);
    let mut question = Vec::new();
    case.question(&mut question);
    match asked.ask(&question).and_then(|()| asked.replies()) {
        Ok(replies) => hold(std::slice::from_ref(case), &replies, tally).map(Ok),
        Err(why) => Ok(Err(why)),
    }
}

fn ended<C: Case>(case: &C, why: String) -> Done {
    case.mismatch("a call", why, "an answer".to_string())
}

fn start_again(program: &str) -> Asked {
    Asked::start(program).unwrap_or_else(|why| {
        println!("{why}");
        exit(2);
    })
}

fn hold<C: Case>(cases: &[C], replies: &[u8], tally: &mut Tally) -> Done {
    let mut replies = Replies::new(replies);
    for case in cases {
        case.hold(&mut replies, tally)?;
    }
    assert!(replies.is_empty(), "every byte of the replies belongs to a case");
    Ok(())
}
