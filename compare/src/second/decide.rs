//! Whether to report, and why: document 01's rules in their order, and the reasons that document 02, §1, names. A box may
//! go over the date line: document 02, §2.

use super::record::named;
use super::settings::*;
use super::{config, record, refuse, Refusal, BYTE, RANGE};

#[derive(Clone, Copy, Debug, PartialEq, Eq)]
pub struct Question<'a> {
    /// 0 ascent, 1 level, 2 descent.
    pub phase: u8,
    /// In minutes.
    pub latitude: i32,
    pub longitude: i32,
    pub hour: u8,
    pub airfield: &'a [u8],
}

#[derive(Clone, Copy, Debug, PartialEq, Eq)]
pub enum Decision {
    Silent,
    Routine,
    Scheme,
}

/// Why: "the first reason that holds".
#[derive(Clone, Copy, Debug, PartialEq, Eq)]
pub enum Cause {
    /// "AMDAR off."
    Off,
    /// "Hours."
    Hours,
    /// "An inhibiting box with its lowest number (from 1)."
    Inside(u8),
    /// "No reporting box holds the place."
    Outside,
    /// "A scheme or any level answer names the phase flag": the flag of a phase, where it lets the aircraft report.
    Allowed(u8),
    /// "A routine in ascent or descent its digit": the digit of a section.
    Digit(u8),
    /// "Phase flag 0": of a phase.
    Forbidden(u8),
    /// "Airfield inhibited."
    Inhibited,
    /// "Airfield not selected."
    Unselected,
}

/// A decision and what it came of.
#[derive(Clone, Copy, Debug, PartialEq, Eq)]
pub struct Why {
    pub decision: Decision,
    pub cause: Cause,
}

use Cause::{Allowed, Digit, Forbidden, Hours, Inhibited, Inside, Off, Outside, Unselected};
use Decision::{Routine, Scheme, Silent};

/// Whether to report.
#[inline(always)]
pub fn decide(configuration: &Configuration, question: &Question) -> Result<Decision, Refusal> {
    explain(configuration, question).map(|why| why.decision)
}

/// "Refusals: 12, then 5 for phase, hour or position, then 4 for an airfield that isn't four allowed bytes."
#[inline(always)]
pub fn explain(configuration: &Configuration, question: &Question) -> Result<Why, Refusal> {
    config::valid(configuration)?;
    let Question { phase, latitude, longitude, hour, airfield } = *question;
    let placed = record::LATITUDE.holds(Some(latitude)) && record::LONGITUDE.holds(Some(longitude));
    if phase > 2 || hour > 23 || !placed {
        return refuse(RANGE, 0);
    }
    match <&[u8; 4]>::try_from(airfield) {
        Ok(airfield) if named(airfield) => Ok(rules(configuration, question, airfield)),
        _ => refuse(BYTE, 0),
    }
}

#[inline(always)]
fn rules(configuration: &Configuration, question: &Question, airfield: &[u8; 4]) -> Why {
    let [amdar, inhibit, regions, airports, ascent, enroute, descent] = configuration.flags;
    let (sections, phase) = (&configuration.sections, question.phase);
    let why = |decision, cause| Why { decision, cause };
    if amdar == 0 {
        return why(Silent, Off);
    }
    if inhibit == 1 && window(sections.hours, question.hour) {
        return why(Silent, Hours);
    }
    if regions == 1 {
        if let Some(cause) = kept_out(&sections.boxes, question) {
            return why(Silent, cause);
        }
    }
    let (flag, lists, digit) = match phase {
        0 => (ascent, [&sections.airfields[0], &sections.airfields[2]], (6, sections.routine6)),
        1 if enroute == 1 => return why(Routine, Allowed(phase)),
        1 => return why(Silent, Forbidden(phase)),
        _ => (descent, [&sections.airfields[1], &sections.airfields[3]], (8, sections.routine8)),
    };
    let hindrance = match (flag, airports) {
        (0, _) => Some(Forbidden(phase)),
        (_, 0) => None,
        _ => turned_away(lists, airfield),
    };
    let Some(hindrance) = hindrance else {
        return why(Scheme, Allowed(phase));
    };
    match if airports == 0 { digit } else { (3, sections.airports) } {
        (section, [1]) => why(Routine, Digit(section)),
        _ => why(Silent, hindrance),
    }
}

/// "From the start hour up to, not including, the end hour, over midnight if needed, and equal hours mean none": as many
/// hours after the start as the end is, or fewer.
#[inline(always)]
fn window([start, end]: [u16; 2], hour: u8) -> bool {
    let after = |hour: u16| (hour + 24 - start) % 24;
    after(u16::from(hour)) < after(end)
}

/// "Silent inside any inhibiting box, or when reporting boxes exist and none holds the position."
#[inline(always)]
fn kept_out([reporting, inhibiting]: &[Boxes; 2], question: &Question) -> Option<Cause> {
    let holds = |region: &Region| holds(region, question.latitude, question.longitude);
    match inhibiting.used().iter().position(holds) {
        Some(before) => Some(Inside(before as u8 + 1)),
        None if reporting.count > 0 && !reporting.used().iter().any(holds) => Some(Outside),
        None => None,
    }
}

/// "Edges belong to a box."
#[inline(always)]
fn holds(region: &Region, latitude: i32, longitude: i32) -> bool {
    let [south, north] = [region.south, region.north].map(|edge| 60 * LATITUDE.degrees(edge));
    let [west, east] = [region.west, region.east].map(|edge| 60 * LONGITUDE.degrees(edge));
    (south..=north).contains(&latitude) && eastward(west, longitude) <= width(west, east)
}

/// Minutes once round the earth.
const ROUND: i32 = 360 * 60;

/// How far a box goes: it "runs eastward from its first longitude and may wrap". From 180W to 180E that is once round,
/// from 180E to 180W not at all.
#[inline(always)]
fn width(west: i32, east: i32) -> i32 {
    if west <= east {
        east - west
    } else {
        east - west + ROUND
    }
}

/// How far a place lies to the east of a meridian, less than once round: 180W and 180E are as far.
#[inline(always)]
fn eastward(from: i32, to: i32) -> i32 {
    (to - from).rem_euclid(ROUND)
}

/// "The airfield isn't inhibited, and the selected list is empty or has it": the first of the two that fails.
#[inline(always)]
fn turned_away([selected, inhibited]: [&Airfields; 2], airfield: &[u8; 4]) -> Option<Cause> {
    if inhibited.used().contains(airfield) {
        return Some(Inhibited);
    }
    (selected.count > 0 && !selected.used().contains(airfield)).then_some(Unselected)
}
