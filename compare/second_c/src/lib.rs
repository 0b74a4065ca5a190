//! The second program as a library for C: each call of host/eskelvor.h under the name `second_..`, with the same structs
//! and the same meaning, for the fuzz harness in host/fuzz. What the two programs share is the header alone.

mod uplink;

use desk_compare::meet;
use desk_compare::ours::{Answer, Figure, GustAnswer, Packed, Report, ReportGot, Sheet, SheetGot};
use desk_compare::second::gust::{gust, Felt};
use desk_compare::second::{packed, report, sheet, write};
use std::slice;

/// A byte string as C lends it; NULL with length 0 is the empty one.
///
/// # Safety
/// `at` has `length` bytes that nothing writes during the call.
unsafe fn lent<'a, T>(at: *const T, length: usize) -> &'a [T] {
    if length == 0 {
        &[]
    } else {
        slice::from_raw_parts(at, length)
    }
}

/// What C lends for writing.
///
/// # Safety
/// `at` has `length` bytes that nothing else reads or writes during the call.
unsafe fn lent_mut<'a, T>(at: *mut T, length: usize) -> &'a mut [T] {
    if length == 0 {
        &mut []
    } else {
        slice::from_raw_parts_mut(at, length)
    }
}

/// # Safety
/// As `lent` of each byte string; so it is for every call below.
#[no_mangle]
pub unsafe extern "C" fn second_packed_read(field: *const u8, length: usize) -> Packed {
    meet::packed(packed::read(lent(field, length)))
}

/// # Safety
/// As `lent_mut` of the room; so it is for every call below.
#[no_mangle]
pub unsafe extern "C" fn second_packed_write(figure: Figure, width: usize, out: *mut u8, room: usize) -> Answer {
    meet::answer(packed::write(meet::raw_figure(figure), width, lent_mut(out, room)))
}

/// # Safety
/// As above.
#[no_mangle]
pub unsafe extern "C" fn second_report_check(text: *const u8, length: usize) -> Answer {
    meet::answer(report::check(lent(text, length)).map(|()| 0))
}

/// # Safety
/// As above.
#[no_mangle]
pub unsafe extern "C" fn second_report_read(text: *const u8, length: usize) -> ReportGot {
    meet::got(&report::read(lent(text, length)))
}

/// # Safety
/// As above.
#[no_mangle]
pub unsafe extern "C" fn second_report_track(text: *const u8, length: usize) -> desk_compare::ours::Track {
    meet::track(&desk_compare::second::track::track(lent(text, length)))
}

/// # Safety
/// As above.
#[no_mangle]
pub unsafe extern "C" fn second_report_write(report: Report, out: *mut u8, room: usize) -> Answer {
    meet::answer(write::write(&meet::raw_record(&report), lent_mut(out, room)))
}

#[no_mangle]
pub extern "C" fn second_gust(row: u32, height: i32, mass: u32, acceleration: u32, speed: u32) -> GustAnswer {
    meet::gust(gust(row, &Felt { height, mass, acceleration, speed }))
}

/// # Safety
/// As above.
#[no_mangle]
pub unsafe extern "C" fn second_sheet_check(text: *const u8, length: usize) -> Answer {
    meet::answer(sheet::check(lent(text, length)).map(|()| 0))
}

/// # Safety
/// As above.
#[no_mangle]
pub unsafe extern "C" fn second_sheet_read(text: *const u8, length: usize) -> SheetGot {
    meet::sheet_got(&sheet::read(lent(text, length)))
}

/// # Safety
/// As above.
#[no_mangle]
pub unsafe extern "C" fn second_sheet_write(of: Sheet, out: *mut u8, room: usize) -> Answer {
    meet::answer(sheet::write(&meet::raw_sheet(&of), lent_mut(out, room)))
}
