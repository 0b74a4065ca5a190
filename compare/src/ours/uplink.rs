//! The header's structs for commands, a section of them, the configuration, the decision, its reason, the board and the journal.

use super::{Answer, Plain};
use std::mem::{offset_of, size_of};

#[repr(C)]
#[derive(Clone, Copy, Debug, Default, PartialEq, Eq)]
pub struct Edge {
    pub degrees: u8,
    pub letter: u8,
}

#[repr(C)]
#[derive(Clone, Copy, Debug, Default, PartialEq, Eq)]
pub struct Region {
    pub north: Edge,
    pub south: Edge,
    pub west: Edge,
    pub east: Edge,
}

#[repr(C)]
#[derive(Clone, Copy, Debug, Default, PartialEq, Eq)]
pub struct Boxes {
    pub count: u8,
    pub regions: [Region; 16],
}

/// The header has the names as 80 bytes.
#[repr(C)]
#[derive(Clone, Copy, Debug, Default, PartialEq, Eq)]
pub struct Airfields {
    pub count: u8,
    pub names: [[u8; 4]; 20],
}

#[repr(C)]
#[derive(Clone, Copy, Debug, Default, PartialEq, Eq)]
pub struct Regions {
    pub reporting: Boxes,
    pub inhibiting: Boxes,
}

#[repr(C)]
#[derive(Clone, Copy, Debug, Default, PartialEq, Eq)]
pub struct ByPhase {
    pub ascent: Airfields,
    pub descent: Airfields,
}

#[repr(C)]
#[derive(Clone, Copy, Debug, Default, PartialEq, Eq)]
pub struct Airports {
    pub selected: ByPhase,
    pub inhibited: ByPhase,
    pub routine: u8,
}

#[repr(C)]
#[derive(Clone, Copy, Debug, Default, PartialEq, Eq)]
pub struct Enroute {
    pub interval: u8,
    pub wind: u8,
}

#[repr(C)]
#[derive(Clone, Copy, Debug, Default, PartialEq, Eq)]
pub struct Ascent {
    pub mode: u8,
    pub interval1: u8,
    pub duration: u16,
    pub interval2: u8,
    pub total: u8,
    pub top: u16,
    pub list: u8,
    pub timer: u8,
}

#[repr(C)]
#[derive(Clone, Copy, Debug, Default, PartialEq, Eq)]
pub struct Descent {
    pub mode: u16,
    pub interval: u16,
    pub top: u16,
    pub list: u8,
    pub timer: u8,
}

#[repr(C)]
#[derive(Clone, Copy, Debug, Default, PartialEq, Eq)]
pub struct Hours {
    pub start: u8,
    pub end: u8,
}

#[repr(C)]
#[derive(Clone, Copy, Debug, Default, PartialEq, Eq)]
pub struct Settings {
    pub flags: [u8; 7],
    pub regions: Regions,
    pub airports: Airports,
    pub enroute: Enroute,
    pub ascent: Ascent,
    pub descent: Descent,
    pub routine6: u8,
    pub routine8: u8,
    pub hours: Hours,
}

#[repr(C)]
#[derive(Clone, Copy, Debug, Default, PartialEq, Eq)]
pub struct Command {
    pub settings: Settings,
    pub downlink: u8,
    pub named: [u8; 8],
    pub spare: u8,
}

#[repr(C)]
#[derive(Clone, Copy, Debug, Default, PartialEq, Eq)]
pub struct CommandGot {
    pub answer: Answer,
    pub command: Command,
}

#[repr(C)]
#[derive(Clone, Copy, Debug, Default, PartialEq, Eq)]
pub struct Part {
    pub place: usize,
    pub length: u32,
    pub code: u8,
    pub spare: [u8; 3],
}

#[repr(C)]
#[derive(Clone, Copy, Debug, Default, PartialEq, Eq)]
pub struct Applied {
    pub place: usize,
    pub code: u8,
    pub downlink: u8,
    pub spare: [u8; 6],
}

#[repr(C)]
#[derive(Clone, Copy, Debug, Default, PartialEq, Eq)]
pub struct Differing {
    pub answer: Answer,
    pub count: u8,
    pub items: [u8; 15],
}

#[repr(C)]
#[derive(Clone, Copy, Debug, Default, PartialEq, Eq)]
pub struct Decided {
    pub place: usize,
    pub code: u8,
    pub decision: u8,
    pub spare: [u8; 6],
}

#[repr(C)]
#[derive(Clone, Copy, Debug, Default, PartialEq, Eq)]
pub struct Explained {
    pub place: usize,
    pub code: u8,
    pub decision: u8,
    pub reason: u8,
    pub number: u8,
    pub spare: u32,
}

#[repr(C)]
#[derive(Clone, Copy, Debug, Default, PartialEq, Eq)]
pub struct CommuteAnswer {
    pub place: usize,
    pub code: u8,
    pub text: u8,
    pub yes: u8,
    pub flags: u8,
    pub sections: u8,
    pub spare: [u8; 3],
}

#[repr(C)]
#[derive(Clone, Copy, Debug, Default, PartialEq, Eq)]
pub struct Slot {
    pub designator: [u8; 6],
    pub length: u16,
}

#[repr(C)]
#[derive(Clone, Copy, Debug, Default, PartialEq, Eq)]
pub struct Tail {
    pub place: usize,
    pub code: u8,
    pub slot: u8,
    pub at: u8,
    pub spare: u8,
    pub rest: u32,
}

#[repr(C)]
#[derive(Clone, Copy, Debug, Default, PartialEq, Eq)]
pub struct Grant {
    pub flags: [u8; 7],
    pub downlinks: u8,
    pub sections: [u8; 8],
}

#[repr(C)]
#[derive(Clone, Copy, Debug, Default, PartialEq, Eq)]
pub struct Entry {
    pub place: usize,
    pub offset: usize,
    pub text: usize,
    pub length: u32,
    pub code: u8,
    pub given: u8,
    pub spare: u16,
}

const _: () = {
    assert!(size_of::<Region>() == 8 && size_of::<Boxes>() == 129 && size_of::<Airfields>() == 81);
    assert!(size_of::<Regions>() == 258 && size_of::<Airports>() == 325 && size_of::<Ascent>() == 10);
    assert!(offset_of!(Ascent, duration) == 2 && offset_of!(Ascent, interval2) == 4);
    assert!(offset_of!(Ascent, top) == 6 && offset_of!(Ascent, list) == 8);
    assert!(size_of::<Descent>() == 8 && offset_of!(Descent, interval) == 2 && offset_of!(Descent, top) == 4);
    assert!(offset_of!(Descent, list) == 6 && offset_of!(Descent, timer) == 7);
    assert!(size_of::<Settings>() == 614 && align_of::<Settings>() == 2);
    assert!(offset_of!(Settings, regions) == 7 && offset_of!(Settings, airports) == 265);
    assert!(offset_of!(Settings, enroute) == 590 && offset_of!(Settings, ascent) == 592);
    assert!(offset_of!(Settings, descent) == 602 && offset_of!(Settings, routine6) == 610);
    assert!(offset_of!(Settings, routine8) == 611 && offset_of!(Settings, hours) == 612);
    assert!(size_of::<Command>() == 624 && offset_of!(Command, downlink) == 614);
    assert!(offset_of!(Command, named) == 615 && offset_of!(Command, spare) == 623);
    assert!(size_of::<CommandGot>() == 640 && offset_of!(CommandGot, command) == 16);
    assert!(size_of::<Part>() == 16 && offset_of!(Part, length) == 8 && offset_of!(Part, code) == 12);
    assert!(size_of::<Applied>() == 16 && offset_of!(Applied, downlink) == 9);
    assert!(size_of::<Differing>() == 32 && offset_of!(Differing, count) == 16 && offset_of!(Differing, items) == 17);
    assert!(size_of::<Decided>() == 16 && offset_of!(Decided, code) == 8 && offset_of!(Decided, decision) == 9);
    assert!(size_of::<Explained>() == 16 && offset_of!(Explained, code) == 8 && offset_of!(Explained, decision) == 9);
    assert!(offset_of!(Explained, reason) == 10 && offset_of!(Explained, number) == 11);
    assert!(size_of::<CommuteAnswer>() == 16 && offset_of!(CommuteAnswer, code) == 8);
    assert!(offset_of!(CommuteAnswer, text) == 9 && offset_of!(CommuteAnswer, yes) == 10);
    assert!(offset_of!(CommuteAnswer, flags) == 11 && offset_of!(CommuteAnswer, sections) == 12);
    assert!(size_of::<Slot>() == 8 && offset_of!(Slot, length) == 6);
    assert!(size_of::<Tail>() == 16 && offset_of!(Tail, slot) == 9 && offset_of!(Tail, rest) == 12);
    assert!(size_of::<Grant>() == 16 && offset_of!(Grant, downlinks) == 7 && offset_of!(Grant, sections) == 8);
    assert!(size_of::<Entry>() == 32 && offset_of!(Entry, offset) == 8 && offset_of!(Entry, text) == 16);
    assert!(offset_of!(Entry, length) == 24 && offset_of!(Entry, code) == 28 && offset_of!(Entry, given) == 29);
};

unsafe impl Plain for Settings {}
unsafe impl Plain for Command {}
unsafe impl Plain for CommandGot {}
unsafe impl Plain for Part {}
unsafe impl Plain for Tail {}
unsafe impl Plain for Applied {}
unsafe impl Plain for Differing {}
unsafe impl Plain for Decided {}
unsafe impl Plain for Explained {}
unsafe impl Plain for CommuteAnswer {}
unsafe impl Plain for Slot {}
unsafe impl Plain for Grant {}
unsafe impl Plain for Entry {}
