//! What goes up, in words.

use super::hex;
use crate::ours::uplink::{Airfields, Boxes, Command, Edge, Settings};

fn edge(of: &Edge) -> String {
    let letter = [of.letter];
    format!("{}{}", of.degrees, letter.escape_ascii())
}

fn boxes(name: &str, list: &Boxes) -> String {
    let last = list.regions.iter().rposition(|region| *region != Default::default()).map_or(0, |at| at + 1);
    let regions = list.regions[..last].iter().map(|region| {
        let edges = [&region.north, &region.south, &region.west, &region.east].map(edge);
        format!(" ({})", edges.join(" "))
    });
    format!("{name}: count {}{}", list.count, regions.collect::<String>())
}

fn airfields(name: &str, list: &Airfields) -> String {
    let last = list.names.iter().rposition(|name| *name != [0; 4]).map_or(0, |at| at + 1);
    let names = list.names[..last].iter().map(|name| format!(" {}", name.escape_ascii()));
    format!("{name}: count {}{}", list.count, names.collect::<String>())
}

/// The lines of a configuration.
pub fn settings(of: &Settings) -> Vec<String> {
    let Settings { enroute, ascent, descent, hours, .. } = of;
    vec![
        format!("flags {:?}", of.flags),
        boxes("reporting", &of.regions.reporting),
        boxes("inhibiting", &of.regions.inhibiting),
        airfields("ascent selected", &of.airports.selected.ascent),
        airfields("descent selected", &of.airports.selected.descent),
        airfields("ascent inhibited", &of.airports.inhibited.ascent),
        airfields("descent inhibited", &of.airports.inhibited.descent),
        format!("routine of section 3 {}, 6 {}, 8 {}", of.airports.routine, of.routine6, of.routine8),
        format!("{enroute:?} {hours:?} {ascent:?} {descent:?}"),
    ]
}

/// The lines of a command.
pub fn command(of: &Command) -> Vec<String> {
    let mut lines = vec![format!("downlink {} named {:?} spare {}", of.downlink, of.named, of.spare)];
    lines.extend(settings(&of.settings));
    lines
}

/// The first and the last byte in which the one differs from the other, and its bytes between, at most a hundred.
pub fn difference(of: &[u8], other: &[u8]) -> String {
    let differs = |at: &usize| of[*at] != other[*at];
    let Some(from) = (0..of.len()).find(differs) else {
        return "the same bytes".to_string();
    };
    let to = (0..of.len()).rfind(differs).map_or(from, |at| at + 1);
    format!("bytes {from} to {} are {}", to - 1, hex(&of[from..to.min(from + 100)]))
}
