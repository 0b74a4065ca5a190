//! The structs of host/eskelvor.h, as it lays them out.

pub mod uplink;

use std::mem::{offset_of, size_of};

#[repr(C)]
#[derive(Clone, Copy, Debug, Default, PartialEq, Eq)]
pub struct Answer {
    pub place: u64,
    pub length: u32,
    pub code: u8,
    pub text: u8,
    pub spare: [u8; 2],
}

#[repr(C)]
#[derive(Clone, Copy, Debug, Default, PartialEq, Eq)]
pub struct Figure {
    pub number: i32,
    pub given: u32,
}

#[repr(C)]
#[derive(Clone, Copy, Debug, Default, PartialEq, Eq)]
pub struct Packed {
    pub number: i32,
    pub place: u16,
    pub code: u8,
    pub given: u8,
}

#[repr(C)]
#[derive(Clone, Copy, Debug, Default, PartialEq, Eq)]
pub struct GustAnswer {
    pub gust: i32,
    pub code: u8,
    pub spare: [u8; 3],
}

#[repr(C)]
#[derive(Clone, Copy, Debug, Default, PartialEq, Eq)]
pub struct Observation {
    pub latitude: Figure,
    pub longitude: Figure,
    pub time: Figure,
    pub altitude: Figure,
    pub temperature: Figure,
    pub wind_direction: Figure,
    pub wind_speed: Figure,
    pub gust: Figure,
    pub vapour: Figure,
    pub kind: u8,
    pub quality: u8,
    pub present: u16,
}

#[repr(C)]
#[derive(Clone, Copy, Debug, Default, PartialEq, Eq)]
pub struct Report {
    pub departure: [u8; 4],
    pub arrival: [u8; 4],
    pub designator: [u8; 6],
    pub spare: [u8; 2],
    pub first: Observation,
    pub later: [Observation; 7],
}

#[repr(C)]
#[derive(Clone, Copy, Debug, Default, PartialEq, Eq)]
pub struct ReportGot {
    pub answer: Answer,
    pub report: Report,
}

#[repr(C)]
#[derive(Clone, Copy, Debug, Default, PartialEq, Eq)]
pub struct Point {
    pub latitude: Figure,
    pub longitude: Figure,
    pub seconds: Figure,
}

#[repr(C)]
#[derive(Clone, Copy, Debug, Default, PartialEq, Eq)]
pub struct Track {
    pub answer: Answer,
    pub count: u32,
    pub spare: u32,
    pub points: [Point; 8],
}

/// Latitude and longitude of two corners, status.
#[repr(C)]
#[derive(Clone, Copy, Debug, Default, PartialEq, Eq)]
pub struct SheetBox {
    pub latitude1: i16,
    pub longitude1: i16,
    pub latitude2: i16,
    pub longitude2: i16,
    pub status: i16,
}

#[repr(C)]
#[derive(Clone, Copy, Debug, Default, PartialEq, Eq)]
pub struct SheetAirport {
    pub icao: [u8; 4],
    pub status: u8,
}

#[repr(C)]
#[derive(Clone, Copy, Debug, PartialEq, Eq)]
pub struct Sheet {
    pub ascent: i16,
    pub ascent_interval1: i16,
    pub ascent_interval2: i16,
    pub level: i16,
    pub level_interval: i16,
    pub descent: i16,
    pub descent_interval1: i16,
    pub descent_interval2: i16,
    pub trigger1: i16,
    pub trigger2: i16,
    pub observations: i16,
    pub smoothing: i16,
    pub profile_constant: i16,
    pub cruise_constant: i16,
    pub gust_constant: i16,
    pub instant_constant: i16,
    pub boxes: [SheetBox; 10],
    pub designator: [u8; 6],
    pub airports: [SheetAirport; 50],
}

#[repr(C)]
#[derive(Clone, Copy, Debug, PartialEq, Eq)]
pub struct SheetGot {
    pub answer: Answer,
    pub sheet: Sheet,
    pub spare: u32,
}

// The header promises sizes without padding; where a size is the sum of its members, so are the offsets.
const _: () = {
    assert!(size_of::<Answer>() == 16 && offset_of!(Answer, length) == 8);
    assert!(offset_of!(Answer, code) == 12 && offset_of!(Answer, text) == 13);
    assert!(size_of::<Figure>() == 8 && offset_of!(Figure, given) == 4);
    assert!(size_of::<Packed>() == 8 && offset_of!(Packed, place) == 4);
    assert!(offset_of!(Packed, code) == 6 && offset_of!(Packed, given) == 7);
    assert!(size_of::<GustAnswer>() == 8 && offset_of!(GustAnswer, code) == 4);
    assert!(size_of::<Observation>() == 76 && offset_of!(Observation, vapour) == 64);
    assert!(offset_of!(Observation, longitude) == 8 && offset_of!(Observation, time) == 16);
    assert!(offset_of!(Observation, altitude) == 24 && offset_of!(Observation, temperature) == 32);
    assert!(offset_of!(Observation, wind_direction) == 40 && offset_of!(Observation, wind_speed) == 48);
    assert!(offset_of!(Observation, gust) == 56 && offset_of!(Observation, kind) == 72);
    assert!(offset_of!(Observation, quality) == 73 && offset_of!(Observation, present) == 74);
    assert!(size_of::<Report>() == 624 && offset_of!(Report, arrival) == 4);
    assert!(offset_of!(Report, designator) == 8 && offset_of!(Report, spare) == 14);
    assert!(offset_of!(Report, first) == 16 && offset_of!(Report, later) == 92);
    assert!(size_of::<ReportGot>() == 640 && offset_of!(ReportGot, report) == 16);
    assert!(size_of::<Point>() == 24 && offset_of!(Point, longitude) == 8 && offset_of!(Point, seconds) == 16);
    assert!(size_of::<Track>() == 216 && offset_of!(Track, count) == 16 && offset_of!(Track, points) == 24);
    assert!(size_of::<SheetBox>() == 10 && offset_of!(SheetBox, longitude2) == 6 && offset_of!(SheetBox, status) == 8);
    assert!(size_of::<SheetAirport>() == 5 && offset_of!(SheetAirport, status) == 4);
    assert!(size_of::<Sheet>() == 388 && offset_of!(Sheet, descent) == 10 && offset_of!(Sheet, trigger1) == 16);
    assert!(
        offset_of!(Sheet, smoothing) == 22 && offset_of!(Sheet, boxes) == 32 && offset_of!(Sheet, designator) == 132
    );
    assert!(offset_of!(Sheet, airports) == 138);
    assert!(size_of::<SheetGot>() == 408 && offset_of!(SheetGot, sheet) == 16 && offset_of!(SheetGot, spare) == 404);
};

/// A struct of the header, as bytes: all members are numbers, and there is no padding.
///
/// # Safety
/// Only for structs in which every sequence of bytes is a value and no byte is padding.
pub unsafe trait Plain: Copy {}
unsafe impl Plain for u64 {}
unsafe impl Plain for Answer {}
unsafe impl Plain for Figure {}
unsafe impl Plain for Packed {}
unsafe impl Plain for GustAnswer {}
unsafe impl Plain for Report {}
unsafe impl Plain for ReportGot {}
unsafe impl Plain for Sheet {}
unsafe impl Plain for SheetGot {}
unsafe impl Plain for Track {}

pub fn bytes_of<T: Plain>(of: &T) -> &[u8] {
    unsafe { std::slice::from_raw_parts((of as *const T).cast(), size_of::<T>()) }
}

/// The struct whose bytes these are; as many as it has.
pub fn of_bytes<T: Plain>(bytes: &[u8]) -> T {
    assert_eq!(bytes.len(), size_of::<T>());
    unsafe { bytes.as_ptr().cast::<T>().read_unaligned() }
}
