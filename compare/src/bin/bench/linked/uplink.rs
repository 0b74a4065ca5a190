//! The calls of what goes up.

use desk_compare::ours::uplink::{
    Applied, Command, CommandGot, CommuteAnswer, Decided, Differing, Entry, Explained, Grant, Part, Settings, Slot, Tail,
};
use desk_compare::ours::Answer;

extern "C" {
    fn esk_command_check(text: *const u8, length: usize) -> Answer;
    fn esk_command_read(text: *const u8, length: usize) -> CommandGot;
    fn esk_command_write(command: *const Command, out: *mut u8, room: usize) -> Answer;
    fn esk_section(number: u32, text: *const u8, length: usize) -> Part;
    fn esk_reset() -> Settings;
    fn esk_settings_valid(settings: *const Settings) -> Answer;
    fn esk_apply(settings: *mut Settings, text: *const u8, length: usize) -> Applied;
    fn esk_difference(first: *const Settings, second: *const Settings, out: *mut u8, room: usize) -> Differing;
    fn esk_decide(
        settings: *const Settings,
        phase: u8,
        latitude: i32,
        longitude: i32,
        hour: u8,
        airfield: *const u8,
        length: usize,
    ) -> Decided;
    fn esk_explain(
        settings: *const Settings,
        phase: u8,
        latitude: i32,
        longitude: i32,
        hour: u8,
        airfield: *const u8,
        length: usize,
    ) -> Explained;
    fn esk_join(
        first: *const u8,
        first_length: usize,
        second: *const u8,
        second_length: usize,
        out: *mut u8,
        room: usize,
    ) -> Answer;
    fn esk_commute(first: *const u8, first_length: usize, second: *const u8, second_length: usize) -> CommuteAnswer;
    fn esk_board_check(slots: *const Slot, n: usize, area: *const u8, area_length: usize) -> Answer;
    fn esk_board_add(
        slots: *mut Slot,
        n: usize,
        area: *mut u8,
        area_length: usize,
        designator: *const u8,
        designator_length: usize,
        text: *const u8,
        length: usize,
    ) -> Answer;
    fn esk_office_add(
        slots: *mut Slot,
        n: usize,
        area: *mut u8,
        area_length: usize,
        designator: *const u8,
        designator_length: usize,
        text: *const u8,
        length: usize,
        own: Grant,
        other: Grant,
    ) -> Answer;
    fn esk_tails_find(
        slots: *const Slot,
        n: usize,
        list: *const u8,
        list_length: usize,
        designator: *const u8,
        designator_length: usize,
    ) -> Tail;
    fn esk_tails_make(slots: *const Slot, n: usize, list: *mut u8, list_length: usize) -> Answer;
    fn esk_tails_add(
        slots: *mut Slot,
        n: usize,
        area: *mut u8,
        area_length: usize,
        list: *mut u8,
        list_length: usize,
        designator: *const u8,
        designator_length: usize,
        text: *const u8,
        length: usize,
    ) -> Answer;
    fn esk_tails_take(
        slots: *mut Slot,
        n: usize,
        area: *const u8,
        area_length: usize,
        list: *mut u8,
        list_length: usize,
        designator: *const u8,
        designator_length: usize,
        out: *mut u8,
        room: usize,
    ) -> Answer;
    fn esk_board_take(
        slots: *mut Slot,
        n: usize,
        area: *const u8,
        area_length: usize,
        designator: *const u8,
        designator_length: usize,
        out: *mut u8,
        room: usize,
    ) -> Answer;
    fn esk_journal_check(journal: *const u8, room: usize, end: usize) -> Answer;
    fn esk_journal_last(journal: *const u8, room: usize, end: usize) -> Entry;
    fn esk_journal_add(
        journal: *mut u8,
        room: usize,
        end: usize,
        designator: *const u8,
        designator_length: usize,
        text: *const u8,
        length: usize,
    ) -> Answer;
    fn esk_journal_drop(journal: *const u8, room: usize, end: usize, count: usize) -> Answer;
    fn esk_journal_print(journal: *const u8, room: usize, end: usize, out: *mut u8, out_room: usize) -> Answer;
    fn esk_journal_replay(
        settings: *mut Settings,
        journal: *const u8,
        room: usize,
        end: usize,
        designator: *const u8,
        designator_length: usize,
    ) -> Answer;
}

#[inline(always)]
pub fn command_check(text: &[u8]) -> Answer {
    unsafe { esk_command_check(text.as_ptr(), text.len()) }
}

#[inline(always)]
pub fn command_read(text: &[u8]) -> CommandGot {
    unsafe { esk_command_read(text.as_ptr(), text.len()) }
}

#[inline(always)]
pub fn command_write(command: &Command, out: &mut [u8]) -> Answer {
    unsafe { esk_command_write(command, out.as_mut_ptr(), out.len()) }
}

#[inline(always)]
pub fn section(number: u8, text: &[u8]) -> Part {
    unsafe { esk_section(u32::from(number), text.as_ptr(), text.len()) }
}

#[inline(always)]
pub fn reset() -> Settings {
    unsafe { esk_reset() }
}

#[inline(always)]
pub fn settings_valid(settings: &Settings) -> Answer {
    unsafe { esk_settings_valid(settings) }
}

#[inline(always)]
pub fn apply(settings: &mut Settings, text: &[u8]) -> Applied {
    unsafe { esk_apply(settings, text.as_ptr(), text.len()) }
}

/// Phase, hour; latitude, longitude.
#[inline(always)]
pub fn difference(first: &Settings, second: &Settings, out: &mut [u8]) -> Differing {
    unsafe { esk_difference(first, second, out.as_mut_ptr(), out.len()) }
}

#[inline(always)]
pub fn decide(settings: &Settings, [phase, hour]: [u8; 2], [north, east]: [i32; 2], airfield: &[u8]) -> Decided {
    unsafe { esk_decide(settings, phase, north, east, hour, airfield.as_ptr(), airfield.len()) }
}

/// As a decision.
#[inline(always)]
pub fn explain(settings: &Settings, [phase, hour]: [u8; 2], [north, east]: [i32; 2], airfield: &[u8]) -> Explained {
    unsafe { esk_explain(settings, phase, north, east, hour, airfield.as_ptr(), airfield.len()) }
}

#[inline(always)]
pub fn join(first: &[u8], second: &[u8], out: &mut [u8]) -> Answer {
    unsafe { esk_join(first.as_ptr(), first.len(), second.as_ptr(), second.len(), out.as_mut_ptr(), out.len()) }
}

#[inline(always)]
pub fn commute(first: &[u8], second: &[u8]) -> CommuteAnswer {
    unsafe { esk_commute(first.as_ptr(), first.len(), second.as_ptr(), second.len()) }
}

#[inline(always)]
pub fn board_check(slots: &[Slot], area: &[u8]) -> Answer {
    unsafe { esk_board_check(slots.as_ptr(), slots.len(), area.as_ptr(), area.len()) }
}

#[inline(always)]
pub fn board_add(slots: &mut [Slot], area: &mut [u8], designator: &[u8], text: &[u8]) -> Answer {
    let (n, bytes) = (slots.len(), area.len());
    let (slots, area) = (slots.as_mut_ptr(), area.as_mut_ptr());
    unsafe { esk_board_add(slots, n, area, bytes, designator.as_ptr(), designator.len(), text.as_ptr(), text.len()) }
}

#[inline(always)]
pub fn office_add(slots: &mut [Slot], area: &mut [u8], designator: &[u8], text: &[u8], grants: [Grant; 2]) -> Answer {
    let (n, bytes, [own, other]) = (slots.len(), area.len(), grants);
    let (slots, area) = (slots.as_mut_ptr(), area.as_mut_ptr());
    let (of, length) = (designator.as_ptr(), designator.len());
    unsafe { esk_office_add(slots, n, area, bytes, of, length, text.as_ptr(), text.len(), own, other) }
}

#[inline(always)]
pub fn tails_find(slots: &[Slot], list: &[u8], designator: &[u8]) -> Tail {
    let (of, length) = (designator.as_ptr(), designator.len());
    unsafe { esk_tails_find(slots.as_ptr(), slots.len(), list.as_ptr(), list.len(), of, length) }
}

#[inline(always)]
pub fn tails_make(slots: &[Slot], list: &mut [u8]) -> Answer {
    unsafe { esk_tails_make(slots.as_ptr(), slots.len(), list.as_mut_ptr(), list.len()) }
}

#[inline(always)]
pub fn tails_add(slots: &mut [Slot], area: &mut [u8], list: &mut [u8], designator: &[u8], text: &[u8]) -> Answer {
    let (n, bytes, listed) = (slots.len(), area.len(), list.len());
    let (slots, area, list) = (slots.as_mut_ptr(), area.as_mut_ptr(), list.as_mut_ptr());
    let (of, length) = (designator.as_ptr(), designator.len());
    unsafe { esk_tails_add(slots, n, area, bytes, list, listed, of, length, text.as_ptr(), text.len()) }
}

#[inline(always)]
pub fn tails_take(slots: &mut [Slot], area: &[u8], list: &mut [u8], designator: &[u8], out: &mut [u8]) -> Answer {
    let (n, bytes, listed) = (slots.len(), area.len(), list.len());
    let (slots, area, list) = (slots.as_mut_ptr(), area.as_ptr(), list.as_mut_ptr());
    let (of, length) = (designator.as_ptr(), designator.len());
    unsafe { esk_tails_take(slots, n, area, bytes, list, listed, of, length, out.as_mut_ptr(), out.len()) }
}

#[inline(always)]
pub fn board_take(slots: &mut [Slot], area: &[u8], designator: &[u8], out: &mut [u8]) -> Answer {
    let (n, bytes) = (slots.len(), area.len());
    let (slots, area) = (slots.as_mut_ptr(), area.as_ptr());
    unsafe { esk_board_take(slots, n, area, bytes, designator.as_ptr(), designator.len(), out.as_mut_ptr(), out.len()) }
}

#[inline(always)]
pub fn journal_check(buffer: &[u8], end: usize) -> Answer {
    unsafe { esk_journal_check(buffer.as_ptr(), buffer.len(), end) }
}

#[inline(always)]
pub fn journal_last(buffer: &[u8], end: usize) -> Entry {
    unsafe { esk_journal_last(buffer.as_ptr(), buffer.len(), end) }
}

#[inline(always)]
pub fn journal_add(buffer: &mut [u8], end: usize, designator: &[u8], text: &[u8]) -> Answer {
    let (buffer, room) = (buffer.as_mut_ptr(), buffer.len());
    unsafe { esk_journal_add(buffer, room, end, designator.as_ptr(), designator.len(), text.as_ptr(), text.len()) }
}

#[inline(always)]
pub fn journal_drop(buffer: &[u8], end: usize, count: usize) -> Answer {
    unsafe { esk_journal_drop(buffer.as_ptr(), buffer.len(), end, count) }
}

#[inline(always)]
pub fn journal_print(buffer: &[u8], end: usize, out: &mut [u8]) -> Answer {
    unsafe { esk_journal_print(buffer.as_ptr(), buffer.len(), end, out.as_mut_ptr(), out.len()) }
}

#[inline(always)]
pub fn journal_replay(settings: &mut Settings, buffer: &[u8], end: usize, designator: &[u8]) -> Answer {
    unsafe { esk_journal_replay(settings, buffer.as_ptr(), buffer.len(), end, designator.as_ptr(), designator.len()) }
}
