//! The comparison run: the proved calls and the second program on the same inputs.
//!
//! compare [--seed N] [--long] [--groups GROUP,..]   every family of the groups; without the word, of report and of those
//!                                                   that Cargo.toml lists as features; all is every group
//! compare [--seed N] [--long] --only FAMILY         one family of any group
//! compare case WORDS                                one case, in the words of a mismatch; @FILE has them in a file:
//!     packed-read HEX (- is no byte)                packed-write NUMBER GIVEN WIDTH ROOM
//!     report HEX                                    record HEX ROOM
//!     track HEX
//!     command HEX                                   command-record HEX ROOM
//!     section NUMBER TEXT
//!     reset                                         apply SETTINGS TEXT
//!     difference SETTINGS SETTINGS ROOM
//!     decide SETTINGS PHASE LATITUDE LONGITUDE HOUR AIRFIELD
//!     explain, as decide
//!     join FIRST SECOND ROOM                        commute FIRST SECOND SETTINGS
//!     board-check SLOTS AREA
//!     board-add SLOTS AREA DESIGNATOR TEXT          board-take SLOTS AREA DESIGNATOR ROOM
//!     office-add SLOTS AREA DESIGNATOR TEXT OWN OTHER
//!     tails-make SLOTS AREA LIST                    tails-find SLOTS AREA LIST DESIGNATOR
//!     tails-add SLOTS AREA LIST DESIGNATOR TEXT     tails-take SLOTS AREA LIST DESIGNATOR ROOM
//!     journal-check BUFFER END                      journal-last BUFFER END
//!     journal-add BUFFER END DESIGNATOR TEXT        journal-drop BUFFER END COUNT
//!     journal-print BUFFER END ROOM                 journal-replay BUFFER END DESIGNATOR
//!     gust ROW HEIGHT MASS ACCELERATION SPEED
//!     sheet HEX                                     sheet-record HEX ROOM
//!
//! It runs in the repository's root, and asks the proved calls through host/tool (`make compare ARGS=..`); each group has
//! its own program in host/test that makes its calls.

mod boards;
mod command_records;
mod commands;
mod commutes;
mod configs;
mod decisions;
mod differences;
mod explanations;
mod forms;
mod gusts;
mod joins;
mod journals;
mod offices;
mod one;
mod packed;
mod queue;
mod records;
mod reports;
mod run;
mod sections;
mod sheets;
mod tails;
mod tracks;

use run::{Options, Run};
use std::process::exit;

const USAGE: &str = "compare [--seed N] [--long] [--groups GROUP,.. | --only FAMILY] | compare case WORDS
groups: report, command, section, config, decide, explain, join, commute, board, journal, gust, sheet, all";

type Group = (&'static str, fn(&mut Run));

/// Each group and its families.
const GROUPS: [Group; 12] = [
    ("report", |run| {
        packed::families(run);
        reports::families(run);
        records::families(run);
        forms::families(run);
        tracks::families(run);
    }),
    ("command", |run| {
        commands::families(run);
        command_records::families(run);
    }),
    ("section", sections::families),
    ("config", |run| {
        configs::families(run);
        differences::families(run);
    }),
    ("decide", decisions::families),
    ("explain", explanations::families),
    ("join", joins::families),
    ("commute", commutes::families),
    ("board", |run| {
        boards::families(run);
        offices::families(run);
        tails::families(run);
    }),
    ("journal", journals::families),
    ("gust", gusts::families),
    ("sheet", sheets::families),
];

/// The groups whose calls the archive has.
fn standing() -> Vec<String> {
    let groups = [
        ("report", true),
        ("command", cfg!(feature = "command")),
        ("section", cfg!(feature = "section")),
        ("config", cfg!(feature = "config")),
        ("decide", cfg!(feature = "decide")),
        ("explain", cfg!(feature = "explain")),
        ("join", cfg!(feature = "join")),
        ("commute", cfg!(feature = "commute")),
        ("board", cfg!(feature = "board")),
        ("journal", cfg!(feature = "journal")),
        ("gust", cfg!(feature = "gust")),
        ("sheet", cfg!(feature = "sheet")),
    ];
    groups.iter().filter(|(_, stands)| *stands).map(|(name, _)| name.to_string()).collect()
}

fn main() {
    let words: Vec<String> = std::env::args().skip(1).collect();
    if words.first().map(String::as_str) == Some("case") {
        exit(one::case(&words[1..]).unwrap_or_else(|why| usage(&why)));
    }
    let options = options(&words).unwrap_or_else(|why| usage(&why));
    let mut run = Run::new(options);
    for (name, families) in GROUPS {
        if run.group(name) {
            families(&mut run);
        }
    }
    run.end();
}

fn options(words: &[String]) -> Result<Options, String> {
    let mut options = Options { seed: 1, long: false, only: None, groups: standing() };
    let mut words = words.iter();
    while let Some(word) = words.next() {
        match word.as_str() {
            "--long" => options.long = true,
            "--seed" => {
                let number = words.next().and_then(|number| number.parse().ok());
                options.seed = number.ok_or("--seed wants a number")?;
            }
            "--only" => options.only = Some(words.next().ok_or("--only wants a family")?.clone()),
            "--groups" => options.groups = groups(words.next().ok_or("--groups wants groups")?)?,
            other => return Err(format!("no such word: {other}")),
        }
    }
    Ok(options)
}

fn groups(word: &str) -> Result<Vec<String>, String> {
    let known = |name: &str| name == "all" || GROUPS.iter().any(|(group, _)| *group == name);
    let one = |name: &str| if known(name) { Ok(name.to_string()) } else { Err(format!("no such group: {name}")) };
    word.split(',').map(one).collect()
}

fn usage(why: &str) -> ! {
    eprintln!("{why}\nusage: {USAGE}");
    exit(2);
}
