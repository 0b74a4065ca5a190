//! A night's archive, read whole: reports of every shape, one after the other, no two the same. Fields a second are of the
//! observations that are present, nine each; the bytes of absent ones are gone through too.

use crate::linked;
use crate::measure::{best_of, pass};
use crate::reports::{second_check, second_read, second_track, typical};
use desk_compare::make;
use desk_compare::random::Random;
use desk_compare::second::record::{Report, BYTES};

const REPORTS: usize = 100_000;
/// Windows of each program: a window is the whole archive.
const WINDOWS: usize = 15;

/// Every other report as aircraft send them, the others with figures from all of their ranges, any number of later
/// observations and any share of missing figures.
fn night() -> Vec<Report> {
    let mut random = Random::new(1, "bench-archive");
    (0..REPORTS).map(|i| if i % 2 == 0 { typical(&mut random) } else { make::record(&mut random) }).collect()
}

pub fn table() {
    let records = night();
    let texts: Vec<[u8; BYTES]> = records.iter().map(make::text).collect();
    let fields: usize = records.iter().map(|record| 9 * (1 + record.later.iter().flatten().count())).sum();
    println!("archive: {REPORTS} reports, {fields} fields\n");
    println!(
        "{:<8} {:>14} {:>10} {:>7} {:>15} {:>10} {:>9} {:>9}",
        "call", "ours fields/s", "second", "ratio", "ours reports/s", "second", "ours ns", "second ns"
    );
    line(
        "check",
        fields,
        best_of(
            WINDOWS,
            || pass(&texts, |text| linked::report_check(text)),
            || pass(&texts, |text| second_check(text)),
        ),
    );
    line(
        "read",
        fields,
        best_of(WINDOWS, || pass(&texts, |text| linked::report_read(text)), || pass(&texts, |text| second_read(text))),
    );
    line(
        "track",
        fields,
        best_of(
            WINDOWS,
            || pass(&texts, |text| linked::report_track(text)),
            || pass(&texts, |text| second_track(text)),
        ),
    );
}

/// One line: fields and reports a second of both programs, how many times the second's time ours takes, ns a report.
fn line(call: &str, fields: usize, windows: [f64; 2]) {
    let [ours, second] = windows;
    let rate = |what: usize, ns: f64| format!("{:.2} M", what as f64 / ns * 1000.0);
    let each = |ns: f64| ns / REPORTS as f64;
    println!(
        "{call:<8} {:>14} {:>10} {:>7.2} {:>15} {:>10} {:>9.1} {:>9.1}",
        rate(fields, ours),
        rate(fields, second),
        ours / second,
        rate(REPORTS, ours),
        rate(REPORTS, second),
        each(ours),
        each(second)
    );
}
