//! What a database made of a fleet's adds and takings, worked out again.
//!
//!   fleet commands SEED COUNT    commands for the load, a line each; one in twenty is damaged
//!   fleet check < LOG            whether all that the log says of the database follows from what was sent
//!
//! The log is what the clients of a load wrote down and what the database held afterwards, a line each, in any order. Words
//! are parted by spaces, and no command of the load has one:
//!
//!   sent CLIENT STEP add DESIGNATOR COMMAND     before it was sent
//!   sent CLIENT STEP take DESIGNATOR
//!   done CLIENT STEP NUMBER TEXT                acknowledged: the text that then waits, or that was taken
//!   none CLIENT STEP                            acknowledged: nothing waited
//!   refused CLIENT STEP CODE PLACE
//!   step NUMBER add CLIENT STEP DESIGNATOR COMMAND TEXT      what the database committed
//!   step NUMBER take CLIENT STEP DESIGNATOR TEXT
//!   handed NUMBER DESIGNATOR TEXT               its journal
//!   waits DESIGNATOR TEXT                       its board
//!
//! A step's NUMBER was given while its aircraft's row was locked, so that among the steps of one aircraft the numbers rise
//! in the order of their commits.

mod held;
mod order;

use desk_compare::make::uplink;
use desk_compare::random::Random;
use desk_compare::second::command;
use std::io::{BufWriter, Read, Write};
use std::process::ExitCode;

/// A text that a log's line can hold.
fn is_a_word(text: &[u8]) -> bool {
    !text.is_empty() && text.iter().all(|byte| byte.is_ascii_graphic() && !matches!(byte, b'\'' | b'\\'))
}

/// A command that the second program refuses.
fn damaged(random: &mut Random) -> Vec<u8> {
    loop {
        let mut text = uplink::text(&uplink::short_command(random));
        uplink::damage(random, &mut text);
        if is_a_word(&text) && command::check(&text).is_err() {
            return text;
        }
    }
}

fn commands(seed: u64, count: usize) -> std::io::Result<()> {
    let mut random = Random::new(seed, "fleet");
    let mut out = BufWriter::new(std::io::stdout().lock());
    for _ in 0..count {
        let text = match random.below(20) {
            0 => damaged(&mut random),
            1..=4 => uplink::text(&uplink::command(&mut random)),
            _ => uplink::text(&uplink::short_command(&mut random)),
        };
        out.write_all(&text)?;
        out.write_all(b"\n")?;
    }
    out.flush()
}

fn check() -> ExitCode {
    let mut log = String::new();
    if let Err(error) = std::io::stdin().lock().read_to_string(&mut log) {
        eprintln!("fleet: the log cannot be read: {error}");
        return ExitCode::from(2);
    }
    let told = log.lines().try_fold(held::Told::default(), |told, line| told.with(line));
    let result = told.and_then(|told| told.check());
    match result {
        Ok(words) => {
            println!("{words}");
            ExitCode::SUCCESS
        }
        Err(words) => {
            println!("fleet: {words}");
            ExitCode::FAILURE
        }
    }
}

fn main() -> ExitCode {
    let words: Vec<String> = std::env::args().skip(1).collect();
    let words: Vec<&str> = words.iter().map(String::as_str).collect();
    match words[..] {
        ["check"] => check(),
        ["commands", seed, count] => match (seed.parse(), count.parse()) {
            (Ok(seed), Ok(count)) if commands(seed, count).is_ok() => ExitCode::SUCCESS,
            _ => ExitCode::from(2),
        },
        _ => {
            eprintln!("usage: fleet commands SEED COUNT | fleet check");
            ExitCode::from(2)
        }
    }
}
