//! A mismatch in words: bytes as they read, and records line by line.

pub mod uplink;

use crate::ours::{Figure, Observation, Report};

/// A new line under the first one of a mismatch's part.
pub const BREAK: &str = "\n             ";

/// Bytes in hex, as the command line takes them.
pub fn hex(bytes: &[u8]) -> String {
    if bytes.is_empty() {
        return "-".to_string();
    }
    bytes.iter().map(|byte| format!("{byte:02x}")).collect()
}

/// Bytes as they read, and in hex.
pub fn bytes(bytes: &[u8]) -> String {
    format!("{} bytes \"{}\"{BREAK}hex {}", bytes.len(), bytes.escape_ascii(), hex(bytes))
}

fn figure(of: &Figure) -> String {
    match of {
        Figure { number: 0, given: 0 } => "missing".to_string(),
        Figure { number, given: 1 } => number.to_string(),
        Figure { number, given } => format!("{number}(given {given})"),
    }
}

fn observation(name: &str, of: &Observation) -> String {
    let figures = [
        ("latitude", &of.latitude),
        ("longitude", &of.longitude),
        ("time", &of.time),
        ("altitude", &of.altitude),
        ("temperature", &of.temperature),
        ("direction", &of.wind_direction),
        ("speed", &of.wind_speed),
        ("gust", &of.gust),
        ("vapour", &of.vapour),
    ];
    let words: Vec<String> = figures.iter().map(|(word, of)| format!("{word} {}", figure(of))).collect();
    let kind = [of.kind];
    let quality = [of.quality];
    format!(
        "{name}: present {} kind {} {} quality {}",
        of.present,
        kind.escape_ascii(),
        words.join(" "),
        quality.escape_ascii()
    )
}

/// The record's lines.
pub fn record(of: &Report) -> Vec<String> {
    let names =
        [&of.departure[..], &of.arrival, &of.designator, &of.spare].map(|bytes| bytes.escape_ascii().to_string());
    let [departure, arrival, designator, spare] = names;
    let mut lines = vec![format!("departure {departure} arrival {arrival} designator {designator} spare {spare}")];
    lines.push(observation("first", &of.first));
    for (index, later) in of.later.iter().enumerate() {
        lines.push(observation(&format!("later {}", index + 1), later));
    }
    lines
}

/// Those lines of the one record that are otherwise in the other.
pub fn differing(of: Vec<String>, other: Vec<String>) -> String {
    let pairs = of.into_iter().zip(other);
    let lines: Vec<String> = pairs.filter(|(one, two)| one != two).map(|(one, _)| one).collect();
    lines.join(BREAK)
}
