//! The calls of what goes up: commands and their sections, the configuration, the decision and its reason, the join, the
//! board and the journal.

use super::{lent, lent_mut};
use desk_compare::meet::{self, uplink as meet_up};
use desk_compare::ours::uplink::{
    Applied, Command, CommandGot, CommuteAnswer, Decided, Differing, Entry, Explained, Grant, Part, Settings, Slot, Tail,
};
use desk_compare::ours::Answer;
use desk_compare::second::decide::Question;
use desk_compare::second::difference::difference;
use desk_compare::second::{board, command, commute, config, decide, join, journal, office, part, spell, tails};

/// # Safety
/// As `lent` and `lent_mut` of each byte string; so it is for every call below.
#[no_mangle]
pub unsafe extern "C" fn second_command_check(text: *const u8, length: usize) -> Answer {
    meet::answer(command::check(lent(text, length)).map(|()| 0))
}

/// # Safety
/// As above.
#[no_mangle]
pub unsafe extern "C" fn second_command_read(text: *const u8, length: usize) -> CommandGot {
    meet_up::got(&command::read(lent(text, length)))
}

/// # Safety
/// As above.
#[no_mangle]
pub unsafe extern "C" fn second_command_write(command: Command, out: *mut u8, room: usize) -> Answer {
    meet::answer(spell::write(&meet_up::meant_command(&command), lent_mut(out, room)))
}

/// # Safety
/// As above.
#[no_mangle]
pub unsafe extern "C" fn second_section(number: u8, text: *const u8, length: usize) -> Part {
    meet_up::part(&part::find(number, lent(text, length)))
}

#[no_mangle]
pub extern "C" fn second_reset() -> Settings {
    meet_up::configuration(&config::reset())
}

#[no_mangle]
pub extern "C" fn second_settings_valid(settings: Settings) -> Answer {
    meet::answer(config::valid(&meet_up::meant_settings(&settings)).map(|()| 0))
}

/// # Safety
/// As above; `settings` is one record.
#[no_mangle]
pub unsafe extern "C" fn second_apply(settings: *mut Settings, text: *const u8, length: usize) -> Applied {
    let mut held = meet_up::meant_settings(&*settings);
    let answer = meet_up::applied(config::apply(&mut held, lent(text, length)));
    *settings = meet_up::configuration(&held);
    answer
}

/// # Safety
/// As above.
#[no_mangle]
pub unsafe extern "C" fn second_difference(first: Settings, second: Settings, out: *mut u8, room: usize) -> Differing {
    let [first, second] = [first, second].map(|of| meet_up::meant_settings(&of));
    meet_up::differing(difference(&first, &second, lent_mut(out, room)))
}

/// # Safety
/// As above.
#[no_mangle]
pub unsafe extern "C" fn second_decide(
    settings: Settings,
    phase: u8,
    latitude: i32,
    longitude: i32,
    hour: u8,
    airfield: *const u8,
    length: usize,
) -> Decided {
    let question = Question { phase, latitude, longitude, hour, airfield: lent(airfield, length) };
    meet_up::decided(decide::decide(&meet_up::meant_settings(&settings), &question))
}

/// # Safety
/// As above.
#[no_mangle]
pub unsafe extern "C" fn second_explain(
    settings: Settings,
    phase: u8,
    latitude: i32,
    longitude: i32,
    hour: u8,
    airfield: *const u8,
    length: usize,
) -> Explained {
    let question = Question { phase, latitude, longitude, hour, airfield: lent(airfield, length) };
    meet_up::explained(decide::explain(&meet_up::meant_settings(&settings), &question))
}

/// # Safety
/// As above.
#[no_mangle]
pub unsafe extern "C" fn second_join(
    first: *const u8,
    first_length: usize,
    second: *const u8,
    second_length: usize,
    out: *mut u8,
    room: usize,
) -> Answer {
    meet_up::joined(join::join(lent(first, first_length), lent(second, second_length), lent_mut(out, room)))
}

/// # Safety
/// As above.
#[no_mangle]
pub unsafe extern "C" fn second_commute(
    first: *const u8,
    first_length: usize,
    second: *const u8,
    second_length: usize,
) -> CommuteAnswer {
    meet_up::commutes(commute::commute(lent(first, first_length), lent(second, second_length)))
}

/// The second program's slots, and the caller's as a call left them.
///
/// # Safety
/// As above.
unsafe fn with_slots<T>(slots: *mut Slot, n: usize, call: impl FnOnce(&mut [board::Slot]) -> T) -> T {
    let slots = lent_mut(slots, n);
    let mut held: Vec<board::Slot> = slots.iter().map(meet_up::meant_slot).collect();
    let answer = call(&mut held);
    for (slot, held) in slots.iter_mut().zip(&held) {
        *slot = meet_up::slot(held);
    }
    answer
}

/// # Safety
/// As above.
#[no_mangle]
pub unsafe extern "C" fn second_board_check(slots: *const Slot, n: usize, area: *const u8, bytes: usize) -> Answer {
    let slots: Vec<board::Slot> = lent(slots, n).iter().map(meet_up::meant_slot).collect();
    meet::answer(board::check(&slots, lent(area, bytes)).map(|()| 0))
}

/// # Safety
/// As above.
#[no_mangle]
pub unsafe extern "C" fn second_board_add(
    slots: *mut Slot,
    n: usize,
    area: *mut u8,
    area_length: usize,
    designator: *const u8,
    designator_length: usize,
    text: *const u8,
    length: usize,
) -> Answer {
    let (area, designator) = (lent_mut(area, area_length), lent(designator, designator_length));
    meet::answer(with_slots(slots, n, |slots| board::add(slots, area, designator, lent(text, length))))
}

/// # Safety
/// As above.
#[no_mangle]
pub unsafe extern "C" fn second_office_add(
    slots: *mut Slot,
    n: usize,
    area: *mut u8,
    area_length: usize,
    designator: *const u8,
    designator_length: usize,
    text: *const u8,
    length: usize,
    own: Grant,
    other: Grant,
) -> Answer {
    let (area, designator) = (lent_mut(area, area_length), lent(designator, designator_length));
    let [own, other] = [own, other].map(|grant| meet_up::meant_grant(&grant));
    let add = |slots: &mut [board::Slot]| office::add(slots, area, designator, lent(text, length), [&own, &other]);
    meet::answer(with_slots(slots, n, add))
}

/// # Safety
/// As above.
#[no_mangle]
pub unsafe extern "C" fn second_tails_make(slots: *const Slot, n: usize, list: *mut u8, list_length: usize) -> Answer {
    let slots: Vec<board::Slot> = lent(slots, n).iter().map(meet_up::meant_slot).collect();
    meet::answer(tails::make(&slots, lent_mut(list, list_length)).map(|()| 0))
}

/// # Safety
/// As above.
#[no_mangle]
pub unsafe extern "C" fn second_tails_find(
    slots: *const Slot,
    n: usize,
    list: *const u8,
    list_length: usize,
    designator: *const u8,
    designator_length: usize,
) -> Tail {
    let slots: Vec<board::Slot> = lent(slots, n).iter().map(meet_up::meant_slot).collect();
    meet_up::tail(tails::find(&slots, lent(list, list_length), lent(designator, designator_length)))
}

/// # Safety
/// As above.
#[no_mangle]
pub unsafe extern "C" fn second_tails_add(
    slots: *mut Slot,
    n: usize,
    area: *mut u8,
    area_length: usize,
    list: *mut u8,
    list_length: usize,
    designator: *const u8,
    designator_length: usize,
    text: *const u8,
    length: usize,
) -> Answer {
    let (area, list) = (lent_mut(area, area_length), lent_mut(list, list_length));
    let (of, text) = (lent(designator, designator_length), lent(text, length));
    meet::answer(with_slots(slots, n, |slots| tails::add(slots, area, list, of, text)))
}

/// # Safety
/// As above.
#[no_mangle]
pub unsafe extern "C" fn second_tails_take(
    slots: *mut Slot,
    n: usize,
    area: *const u8,
    area_length: usize,
    list: *mut u8,
    list_length: usize,
    designator: *const u8,
    designator_length: usize,
    out: *mut u8,
    room: usize,
) -> Answer {
    let (area, list) = (lent(area, area_length), lent_mut(list, list_length));
    let (of, out) = (lent(designator, designator_length), lent_mut(out, room));
    meet::answer(with_slots(slots, n, |slots| tails::take(slots, area, list, of, out)))
}

/// # Safety
/// As above.
#[no_mangle]
pub unsafe extern "C" fn second_board_take(
    slots: *mut Slot,
    n: usize,
    area: *const u8,
    area_length: usize,
    designator: *const u8,
    designator_length: usize,
    out: *mut u8,
    room: usize,
) -> Answer {
    let (area, designator) = (lent(area, area_length), lent(designator, designator_length));
    meet::answer(with_slots(slots, n, |slots| board::take(slots, area, designator, lent_mut(out, room))))
}

/// # Safety
/// As above.
#[no_mangle]
pub unsafe extern "C" fn second_journal_check(buffer: *const u8, room: usize, end: usize) -> Answer {
    meet::answer(journal::check(lent(buffer, room), end).map(|()| 0))
}

/// # Safety
/// As above.
#[no_mangle]
pub unsafe extern "C" fn second_journal_last(buffer: *const u8, room: usize, end: usize) -> Entry {
    meet_up::entry(journal::last(lent(buffer, room), end))
}

/// # Safety
/// As above.
#[no_mangle]
pub unsafe extern "C" fn second_journal_add(
    buffer: *mut u8,
    room: usize,
    end: usize,
    designator: *const u8,
    designator_length: usize,
    text: *const u8,
    length: usize,
) -> Answer {
    let (designator, text) = (lent(designator, designator_length), lent(text, length));
    meet::answer(journal::add(lent_mut(buffer, room), end, designator, text))
}

/// # Safety
/// As above.
#[no_mangle]
pub unsafe extern "C" fn second_journal_drop(buffer: *const u8, room: usize, end: usize, count: usize) -> Answer {
    meet::answer(journal::drop_last(lent(buffer, room), end, count))
}

/// # Safety
/// As above.
#[no_mangle]
pub unsafe extern "C" fn second_journal_print(
    buffer: *const u8,
    room: usize,
    end: usize,
    out: *mut u8,
    out_room: usize,
) -> Answer {
    meet::answer(journal::print(lent(buffer, room), end, lent_mut(out, out_room)))
}

/// # Safety
/// As above; `settings` is one record, which may hold anything.
#[no_mangle]
pub unsafe extern "C" fn second_journal_replay(
    settings: *mut Settings,
    buffer: *const u8,
    room: usize,
    end: usize,
    designator: *const u8,
    designator_length: usize,
) -> Answer {
    let mut held = config::reset();
    let answer = journal::replay(&mut held, lent(buffer, room), end, lent(designator, designator_length));
    if answer.is_ok() {
        *settings = meet_up::configuration(&held);
    }
    meet::answer(answer.map(|()| 0))
}
