//! The benchmark: ns per call of the proved calls and of the second program, and their ratio, from one run. It needs an
//! archive for this machine (build.rs), which `make bench` makes first.
//!
//! bench [WORD]    every row, or those whose name has the word
//! bench growth    how the cost grows with the length of a text and with the used slots of a board
//! bench archive   a night's archive of reports, checked, read and turned into tracks: fields and reports a second

#[cfg(linked)]
mod archive;
#[cfg(linked)]
mod boards;
#[cfg(linked)]
mod commands;
#[cfg(linked)]
mod configs;
#[cfg(linked)]
mod decisions;
#[cfg(linked)]
mod growth;
#[cfg(linked)]
mod gusts;
#[cfg(linked)]
mod joins;
#[cfg(linked)]
mod journals;
#[cfg(linked)]
mod linked;
#[cfg(linked)]
mod measure;
#[cfg(linked)]
mod reports;
#[cfg(linked)]
mod sections;
#[cfg(linked)]
mod sheets;

#[cfg(linked)]
fn main() {
    let word = std::env::args().nth(1).unwrap_or_default();
    if word == "growth" {
        return growth::table();
    }
    if word == "archive" {
        return archive::table();
    }
    let bench = measure::Bench::start(word);
    reports::rows(&bench);
    gusts::rows(&bench);
    sheets::rows(&bench);
    commands::rows(&bench);
    sections::rows(&bench);
    configs::rows(&bench);
    decisions::rows(&bench);
    joins::rows(&bench);
    boards::rows(&bench);
    journals::rows(&bench);
}

#[cfg(not(linked))]
fn main() {
    eprintln!("bench: built without an archive for this machine: 'make bench' makes one first");
    std::process::exit(2);
}
