//! A board, the list beside it, and a run of events on it; after each event every byte of slots, area, list, guards and output is
//! compared.

use super::Case as _;
use super::{arena, counted, pattern, short, Held, Mismatch, GUARD};
use crate::asked::Replies;
use crate::meet;
use crate::ours::uplink::{Grant, Slot, Tail};
use crate::ours::{bytes_of, Answer};
use crate::second::settings::MOST;
use crate::second::{board, office, tails, Refusal};
use crate::tally::Tally;
use crate::tell::{self, hex, BREAK};

#[derive(Clone)]
pub enum Event {
    Check,
    Add {
        designator: Vec<u8>,
        text: Vec<u8>,
    },
    /// Of an office: its grant, and the other's.
    Office {
        grants: [Grant; 2],
        designator: Vec<u8>,
        text: Vec<u8>,
    },
    Take {
        designator: Vec<u8>,
        room: usize,
    },
    /// The list is made.
    Make,
    /// And searched.
    Find {
        designator: Vec<u8>,
    },
    /// An adding, and a taking, with the list lent beside the board.
    ListedAdd {
        designator: Vec<u8>,
        text: Vec<u8>,
    },
    ListedTake {
        designator: Vec<u8>,
        room: usize,
    },
}

/// What a call answers.
#[derive(Clone, Copy, Debug, PartialEq)]
enum Reply {
    Answer(Answer),
    Tail(Tail),
}

#[derive(Clone)]
pub struct Case {
    pub slots: Vec<Slot>,
    pub area: Vec<u8>,
    /// Of no byte where no event has a list.
    pub list: Vec<u8>,
    pub events: Vec<Event>,
}

/// The second program's board.
struct Board {
    slots: Vec<board::Slot>,
    area: Vec<u8>,
    list: Vec<u8>,
}

impl Board {
    /// What an event answers and, for a taking, what it leaves in its room.
    fn event(&mut self, event: &Event) -> (Result<usize, Refusal>, Vec<u8>) {
        let Board { slots, area, list } = self;
        match event {
            Event::Check => (board::check(slots, area).map(|()| 0), Vec::new()),
            Event::Add { designator, text } => (board::add(slots, area, designator, text), Vec::new()),
            Event::Office { grants, designator, text } => {
                let [own, other] = [0, 1].map(|index| meet::uplink::meant_grant(&grants[index]));
                (office::add(slots, area, designator, text, [&own, &other]), Vec::new())
            }
            Event::Take { designator, room } => arena(*room, |out| board::take(slots, area, designator, out)),
            Event::Make => (tails::make(slots, list).map(|()| 0), Vec::new()),
            Event::Find { designator } => {
                (tails::find(slots, list, designator).and_then(|found| found.slot), Vec::new())
            }
            Event::ListedAdd { designator, text } => (tails::add(slots, area, list, designator, text), Vec::new()),
            Event::ListedTake { designator, room } => {
                arena(*room, |out| tails::take(slots, area, list, designator, out))
            }
        }
    }

    /// What the host is answered, before the event.
    fn reply(&self, event: &Event, answer: Result<usize, Refusal>) -> Reply {
        match event {
            Event::Find { designator } => {
                Reply::Tail(meet::uplink::tail(tails::find(&self.slots, &self.list, designator)))
            }
            _ => Reply::Answer(meet::answer(answer)),
        }
    }

    /// The board as host/test/answer_board.c lends it: a guard, the slots, a guard, the area, a guard, the list, a guard.
    fn block(&self) -> Vec<u8> {
        let slots: Vec<u8> = self.slots.iter().flat_map(|slot| bytes_of(&meet::uplink::slot(slot)).to_vec()).collect();
        let mut block = pattern(4 * GUARD + slots.len() + self.area.len() + self.list.len());
        let mut at = GUARD;
        for part in [&slots, &self.area, &self.list] {
            block[at..at + part.len()].copy_from_slice(part);
            at += part.len() + GUARD;
        }
        block
    }

    /// Whether a block holds this board; its guards are those of another one.
    fn is(&self, block: &[u8], guards: &[u8]) -> bool {
        let slots = GUARD + size_of::<Slot>() * self.slots.len();
        let area = slots + GUARD + self.area.len();
        let list = area + GUARD + self.list.len();
        let held = block[GUARD..slots].chunks_exact(size_of::<Slot>()).zip(&self.slots);
        let same = |range: std::ops::Range<usize>| block[range.clone()] == guards[range];
        held.into_iter().all(|(bytes, slot)| bytes == bytes_of(&meet::uplink::slot(slot)))
            && block[slots + GUARD..area] == self.area[..]
            && block[area + GUARD..list] == self.list[..]
            && same(0..GUARD)
            && same(slots..slots + GUARD)
            && same(area..area + GUARD)
            && same(list..list + GUARD)
    }
}

impl super::Case for Case {
    const PROGRAM: &'static str = "answer_board";

    fn question(&self, into: &mut Vec<u8>) {
        into.extend(short(self.slots.len()));
        into.extend((self.area.len() as u32).to_le_bytes());
        into.extend(short(self.list.len()));
        self.slots.iter().for_each(|slot| into.extend(bytes_of(slot)));
        into.extend(&self.area);
        into.extend(&self.list);
        into.extend(short(self.events.len()));
        for event in &self.events {
            match event {
                Event::Check => into.push(1),
                Event::Add { designator, text } => {
                    into.push(2);
                    counted(into, designator);
                    counted(into, text);
                }
                Event::Office { grants, designator, text } => {
                    into.push(4);
                    grants.iter().for_each(|grant| into.extend(bytes_of(grant)));
                    counted(into, designator);
                    counted(into, text);
                }
                Event::Take { designator, room } | Event::ListedTake { designator, room } => {
                    into.push(if matches!(event, Event::Take { .. }) { 3 } else { 8 });
                    counted(into, designator);
                    into.extend(short(*room));
                }
                Event::Make => into.push(5),
                Event::Find { designator } => {
                    into.push(6);
                    counted(into, designator);
                }
                Event::ListedAdd { designator, text } => {
                    into.push(7);
                    counted(into, designator);
                    counted(into, text);
                }
            }
        }
    }

    fn hold(&self, replies: &mut Replies, tally: &mut Tally) -> Held {
        self.run(replies, tally).map(|_| ())
    }

    fn input(&self) -> String {
        let events = self.events.iter().map(told).collect::<Vec<_>>().join(BREAK);
        let used = self.slots.iter().enumerate().filter(|(_, slot)| slot.length > 0);
        let slots = used.map(|(index, slot)| {
            let text = self.area.get(MOST * index..).unwrap_or_default();
            let text = &text[..text.len().min(usize::from(slot.length))];
            let name = slot.designator.escape_ascii();
            format!("{BREAK}slot {index}: {name} length {} \"{}\"", slot.length, text.escape_ascii())
        });
        let [count, bytes] = [self.slots.len(), self.area.len()];
        let list = if self.list.is_empty() { String::new() } else { format!(", list {:?}", self.list) };
        format!("{events}{BREAK}{count} slots, area of {bytes} bytes{list}{}", slots.collect::<String>())
    }

    fn parts(&self) -> Vec<Case> {
        (0..self.events.len()).map(|index| self.alone(index)).collect()
    }

    /// Of a case with one event.
    fn words(&self) -> String {
        let slots: Vec<u8> = self.slots.iter().flat_map(|slot| bytes_of(slot).to_vec()).collect();
        let board = format!("{} {}", hex(&slots), hex(&self.area));
        match &self.events[0] {
            Event::Check => format!("board-check {board}"),
            Event::Add { designator, text } => format!("board-add {board} {} {}", hex(designator), hex(text)),
            Event::Office { grants, designator, text } => {
                let [own, other] = [0, 1].map(|index| hex(bytes_of(&grants[index])));
                format!("office-add {board} {} {} {own} {other}", hex(designator), hex(text))
            }
            Event::Take { designator, room } => format!("board-take {board} {} {room}", hex(designator)),
            listed => {
                let list = hex(&self.list);
                match listed {
                    Event::Find { designator } => format!("tails-find {board} {list} {}", hex(designator)),
                    Event::ListedAdd { designator, text } => {
                        format!("tails-add {board} {list} {} {}", hex(designator), hex(text))
                    }
                    Event::ListedTake { designator, room } => {
                        format!("tails-take {board} {list} {} {room}", hex(designator))
                    }
                    _ => format!("tails-make {board} {list}"),
                }
            }
        }
    }
}

impl Case {
    /// Holds every event, and gives our board as it then is, in its block.
    fn run(&self, replies: &mut Replies, tally: &mut Tally) -> Result<Vec<u8>, Box<Mismatch>> {
        let mut second = self.board();
        let mut ours = second.block();
        let guards = ours.clone();
        for (index, event) in self.events.iter().enumerate() {
            let before = Board { slots: second.slots.clone(), area: Vec::new(), list: second.list.clone() };
            let (answer, left) = second.event(event);
            let want = before.reply(event, answer);
            let got = match want {
                Reply::Answer(_) => Reply::Answer(replies.one()),
                Reply::Tail(_) => Reply::Tail(replies.one()),
            };
            changes(&mut ours, replies);
            let taken = replies.take(left.len());
            if got != want || taken != left || !second.is(&ours, &guards) {
                let block = second.block();
                let words = |answer: Reply, of: &[u8], other: &[u8], left: &[u8]| {
                    let [board, room] = [tell::uplink::difference(of, other), tell::bytes(left)];
                    format!("{answer:?}{BREAK}slots, area and list, with guards of {GUARD}: {board}{BREAK}lent {room}")
                };
                let (ours, second) = (words(got, &ours, &block, taken), words(want, &block, &ours, &left));
                return self.alone(index).mismatch(call(event), ours, second);
            }
            tally.answer(&answer);
        }
        Ok(ours)
    }

    fn board(&self) -> Board {
        let slots = self.slots.iter().map(meet::uplink::meant_slot).collect();
        Board { slots, area: self.area.clone(), list: self.list.clone() }
    }

    /// The board as the events before one left it, and that event alone.
    fn alone(&self, index: usize) -> Case {
        let mut board = self.board();
        for event in &self.events[..index] {
            let _ = board.event(event);
        }
        let slots = board.slots.iter().map(meet::uplink::slot).collect();
        Case { slots, area: board.area, list: board.list, events: vec![self.events[index].clone()] }
    }
}

/// Takes over what an event changed: from where, up to where, and the bytes between.
fn changes(block: &mut [u8], replies: &mut Replies) {
    let mut number = || u32::from_le_bytes(replies.take(4).try_into().expect("four bytes")) as usize;
    let (from, to) = (number(), number());
    block[from..to].copy_from_slice(replies.take(to - from));
}

fn call(event: &Event) -> &'static str {
    match event {
        Event::Check => "esk_board_check",
        Event::Add { .. } => "esk_board_add",
        Event::Office { .. } => "esk_office_add",
        Event::Take { .. } => "esk_board_take",
        Event::Make => "esk_tails_make",
        Event::Find { .. } => "esk_tails_find",
        Event::ListedAdd { .. } => "esk_tails_add",
        Event::ListedTake { .. } => "esk_tails_take",
    }
}

fn told(event: &Event) -> String {
    match event {
        Event::Check => "check".to_string(),
        Event::Add { designator, text } => format!("add for {} {}", designator.escape_ascii(), tell::bytes(text)),
        Event::Office { grants: [own, other], designator, text } => {
            format!("add for {} {} by {own:?} beside {other:?}", designator.escape_ascii(), tell::bytes(text))
        }
        Event::Take { designator, room } => format!("take for {} into {room}", designator.escape_ascii()),
        Event::Make => "make the list".to_string(),
        Event::Find { designator } => format!("find {}", designator.escape_ascii()),
        Event::ListedAdd { designator, text } => {
            format!("add for {} {} with the list", designator.escape_ascii(), tell::bytes(text))
        }
        Event::ListedTake { designator, room } => {
            format!("take for {} into {room} with the list", designator.escape_ascii())
        }
    }
}

/// Two nights in which one office and the takings are the same: what waits of that office's own is the same after both.
pub struct Pair {
    pub nights: [Case; 2],
    pub own: Grant,
}

impl super::Case for Pair {
    const PROGRAM: &'static str = "answer_board";

    fn question(&self, into: &mut Vec<u8>) {
        self.nights.iter().for_each(|night| night.question(into));
    }

    fn hold(&self, replies: &mut Replies, tally: &mut Tally) -> Held {
        let [one, other] = [0, 1].map(|index| self.nights[index].run(replies, tally));
        let [one, other] = [self.parts_in(&one?), self.parts_in(&other?)];
        if one != other {
            return self.mismatch("esk_office_add", format!("{one:?}"), format!("{other:?}"));
        }
        Ok(())
    }

    fn input(&self) -> String {
        let [one, other] = [0, 1].map(|index| self.nights[index].input());
        format!("{one}{BREAK}and{BREAK}{other}")
    }

    fn words(&self) -> String {
        "--only office-pairs (no case of its own: two nights)".to_string()
    }
}

impl Pair {
    /// For each aircraft that something waits for: the flags and sections of the grant in it, where it sets any.
    fn parts_in(&self, block: &[u8]) -> Vec<(Vec<u8>, Vec<u8>)> {
        let own = meet::uplink::meant_grant(&self.own);
        let n = self.nights[0].slots.len();
        let area = &block[2 * GUARD + size_of::<Slot>() * n..];
        let slots = block[GUARD..].chunks_exact(size_of::<Slot>()).take(n).enumerate();
        let waits = slots.map(|(index, slot)| (slot, usize::from(u16::from_le_bytes([slot[6], slot[7]])), index));
        let mut found: Vec<_> = waits
            .filter(|&(_, length, _)| length > 0)
            .map(|(slot, length, index)| (slot[..6].to_vec(), office::own_part(&area[MOST * index..][..length], &own)))
            .filter(|(_, part)| part.iter().any(|&byte| byte != b'9'))
            .collect();
        found.sort();
        found
    }
}
