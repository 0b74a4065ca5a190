//! The proved calls, linked into this program.

pub mod uplink;

use desk_compare::ours::{Answer, Figure, GustAnswer, Packed, Report, ReportGot, Sheet, SheetGot};

extern "C" {
    fn esk_packed_read(field: *const u8, length: usize) -> Packed;
    fn esk_packed_write(figure: Figure, width: usize, out: *mut u8, room: usize) -> Answer;
    fn esk_report_check(text: *const u8, length: usize) -> Answer;
    fn esk_report_read(text: *const u8, length: usize) -> ReportGot;
    fn esk_report_track(text: *const u8, length: usize) -> desk_compare::ours::Track;
    fn esk_report_write(report: Report, out: *mut u8, room: usize) -> Answer;
    fn esk_sheet_check(text: *const u8, length: usize) -> Answer;
    fn esk_sheet_read(text: *const u8, length: usize) -> SheetGot;
    fn esk_sheet_write(sheet: Sheet, out: *mut u8, room: usize) -> Answer;
    fn esk_gust(row: u32, height: i32, mass: u32, acceleration: u32, speed: u32) -> GustAnswer;
}

// Each call is lent a slice's own bytes and its own length, and the header says that it keeps nothing. An empty slice's
// pointer is one that no call reads.

#[inline(always)]
pub fn packed_read(field: &[u8]) -> Packed {
    unsafe { esk_packed_read(field.as_ptr(), field.len()) }
}

#[inline(always)]
pub fn packed_write(figure: Figure, width: usize, out: &mut [u8]) -> Answer {
    unsafe { esk_packed_write(figure, width, out.as_mut_ptr(), out.len()) }
}

#[inline(always)]
pub fn report_check(text: &[u8]) -> Answer {
    unsafe { esk_report_check(text.as_ptr(), text.len()) }
}

#[inline(always)]
pub fn report_read(text: &[u8]) -> ReportGot {
    unsafe { esk_report_read(text.as_ptr(), text.len()) }
}

#[inline(always)]
pub fn report_track(text: &[u8]) -> desk_compare::ours::Track {
    unsafe { esk_report_track(text.as_ptr(), text.len()) }
}

#[inline(always)]
pub fn report_write(report: Report, out: &mut [u8]) -> Answer {
    unsafe { esk_report_write(report, out.as_mut_ptr(), out.len()) }
}

#[inline(always)]
pub fn sheet_check(text: &[u8]) -> Answer {
    unsafe { esk_sheet_check(text.as_ptr(), text.len()) }
}

#[inline(always)]
pub fn sheet_read(text: &[u8]) -> SheetGot {
    unsafe { esk_sheet_read(text.as_ptr(), text.len()) }
}

#[inline(always)]
pub fn sheet_write(sheet: Sheet, out: &mut [u8]) -> Answer {
    unsafe { esk_sheet_write(sheet, out.as_mut_ptr(), out.len()) }
}

#[inline(always)]
pub fn gust(row: u32, height: i32, mass: u32, acceleration: u32, speed: u32) -> GustAnswer {
    unsafe { esk_gust(row, height, mass, acceleration, speed) }
}
