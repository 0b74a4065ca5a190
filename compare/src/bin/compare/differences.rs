//! Families of pairs of configurations that differ in nothing, one thing, many or all; and of the rooms for the command.

use crate::queue;
use crate::run::{Done, Run};
use desk_compare::cases::difference::Case;
use desk_compare::cases::Case as _;
use desk_compare::make::uplink::{self, Lists, AIRFIELDS};
use desk_compare::make::{faults, name};
use desk_compare::meet::uplink as meet;
use desk_compare::ours::uplink::Settings;
use desk_compare::ours::{bytes_of, of_bytes};
use desk_compare::random::Random;
use desk_compare::second::config;
use desk_compare::second::difference::difference;
use desk_compare::second::settings::*;

type Queue = queue::Queue<Case>;

/// What is changed after reset, the items, and the command, that are plain from document 02, §5.
type Known = (fn(&mut Configuration), &'static [u8], &'static [u8]);

const KNOWN: [Known; 10] = [
    (|_| (), &[], b"AWR049999999000000000/"),
    (|c| c.flags[0] = 0, &[1], b"AWR040999999000000000/"),
    (|c| c.flags = [0, 1, 1, 1, 0, 0, 0], &[1, 2, 3, 4, 5, 6, 7], b"AWR040111000000000000/"),
    (|c| c.sections.airports = [1], &[13], b"AWR049999999003000000/000000001/"),
    (|c| c.sections.enroute = [7, 0], &[14], b"AWR049999999000400000/070/"),
    (|c| c.sections.ascent[7] = 0, &[15], b"AWR049999999000050000/1060902005120020/"),
    (|c| c.sections.descent = [0, 40, 200, 1, 1], &[17], b"AWR049999999000000700/004020011/"),
    (|c| c.sections.hours = [23, 1], &[19], b"AWR049999999000000009/2301/"),
    (
        |c| (c.flags[3], c.sections.hours[1], c.sections.enroute[0]) = (1, 1, 60),
        &[4, 14, 19],
        b"AWR049991999000400009/601/0001/",
    ),
    (|c| (c.sections.routine6, c.sections.routine8) = ([0], [0]), &[16, 18], b"AWR049999999000006080/0/0/"),
];

pub fn families(run: &mut Run) {
    run.family("difference-known", "pairs that are plain from document 02, §5, both programs", |_, queue| {
        KNOWN.into_iter().try_for_each(|known| plain(queue, known))
    });
    run.family("difference-flags", "every seven flags with every other seven", |random, queue| {
        let held = uplink::configuration_of(random, Lists::Few);
        (0..128).try_for_each(|one| (0..128).try_for_each(|other| flags(queue, &held, [one, other])))
    });
    run.family(
        "difference-sections",
        "every choice of sections that are another's, over empty, short and full lists",
        |random, queue| (0..256).try_for_each(|bits| sections(random, queue, bits)),
    );
    run.family(
        "difference-entries",
        "one byte or edge of every entry of every list; entries more, fewer and changed about",
        |random, queue| (0..6).try_for_each(|_| entries(random, queue)),
    );
    run.family("difference-numbers", "every number of every short section made every other", |random, queue| {
        numbers(random, queue)
    });
    run.family("difference-room", "every room from 0 to past the length, for pairs of every kind", |random, queue| {
        (0..60).try_for_each(|turn| rooms(random, queue, turn))
    });
    run.family("difference-bytes", "every byte of one of the two made every other", |random, queue| {
        [Lists::Few, Lists::Full].into_iter().try_for_each(|lists| bytes(random, queue, lists))
    });
    let turns = run.turns(30_000);
    run.family(
        "difference-made",
        "what a random command made of a random configuration: it sets all that is listed",
        |random, queue| (0..turns).try_for_each(|_| made(random, queue)),
    );
    let turns = run.turns(30_000);
    run.family("difference-random", "random pairs, a third of the sections and flags the same", |random, queue| {
        (0..turns).try_for_each(|_| pair(random, queue))
    });
    let turns = run.turns(40_000);
    run.family("difference-damaged", "random pairs, one or both damaged, in any room", |random, queue| {
        (0..turns).try_for_each(|_| damaged(random, queue))
    });
}

fn ask(queue: &mut Queue, first: &Configuration, second: &Configuration) -> Done {
    queue.case(case(first, second, MOST))
}

fn case(first: &Configuration, second: &Configuration, room: usize) -> Case {
    Case { settings: Box::new([meet::configuration(first), meet::configuration(second)]), room }
}

/// Both ways.
fn both(queue: &mut Queue, first: &Configuration, second: &Configuration) -> Done {
    ask(queue, first, second)?;
    ask(queue, second, first)
}

fn plain(queue: &mut Queue, (change, items, text): Known) -> Done {
    let first = config::reset();
    let mut second = first;
    change(&mut second);
    let case = case(&first, &second, text.len());
    let mut out = vec![0; text.len()];
    let got = difference(&first, &second, &mut out).map(|(of, length)| (of.items().collect::<Vec<u8>>(), length));
    if got != Ok((items.to_vec(), text.len())) || out != text {
        let want = format!("document 02: {items:?} {}", text.escape_ascii());
        return case.mismatch("a known pair", want, format!("{got:?} {}", out.escape_ascii()));
    }
    queue.case(case)
}

fn flags(queue: &mut Queue, held: &Configuration, bits: [u8; 2]) -> Done {
    let [first, second] =
        bits.map(|bits| Configuration { flags: std::array::from_fn(|index| bits >> index & 1), ..*held });
    ask(queue, &first, &second)
}

/// Every section of one configuration, and those of a choice in the place of another's.
fn sections(random: &mut Random, queue: &mut Queue, bits: u32) -> Done {
    for held in [Lists::Empty, Lists::Few, Lists::Full] {
        for lists in [Lists::Empty, Lists::Few, Lists::Full] {
            let first = uplink::configuration_of(random, held);
            let other = uplink::configuration_of(random, lists);
            let mut second =
                Configuration { flags: if random.percent(70) { first.flags } else { other.flags }, ..first };
            uplink::copy_sections(&other.sections, &mut second.sections, bits);
            both(queue, &first, &second)?;
        }
    }
    Ok(())
}

/// A list with an entry more or fewer, if it has room or any; or with two entries in each other's place.
fn changed<T: Copy + Default, const N: usize>(random: &mut Random, list: &mut List<T, N>, entry: T) {
    let count = usize::from(list.count);
    match random.below(3) {
        0 if count < N => {
            list.entries[count] = entry;
            list.count += 1;
        }
        1 if count > 0 => {
            list.entries[count - 1] = T::default();
            list.count -= 1;
        }
        _ if count > 0 => list.entries[..count].swap(0, random.below(count)),
        _ => (),
    }
}

fn entries(random: &mut Random, queue: &mut Queue) -> Done {
    for lists in [Lists::Few, Lists::Any, Lists::Full] {
        let held = uplink::configuration_of(random, lists);
        for list in 0..2 {
            for index in 0..held.sections.boxes[list].used().len() {
                let mut second = held;
                second.sections.boxes[list].entries[index] =
                    other_box(random, &held.sections.boxes[list].entries[index]);
                both(queue, &held, &second)?;
            }
            let mut second = held;
            let region = uplink::region(random);
            changed(random, &mut second.sections.boxes[list], region);
            both(queue, &held, &second)?;
        }
        for list in 0..4 {
            for index in 0..held.sections.airfields[list].used().len() {
                for byte in 0..4 {
                    let mut second = held;
                    let other: [u8; 1] = name(random);
                    second.sections.airfields[list].entries[index][byte] = other[0];
                    both(queue, &held, &second)?;
                }
            }
            let mut second = held;
            let airfield = random.of(&AIRFIELDS);
            changed(random, &mut second.sections.airfields[list], airfield);
            both(queue, &held, &second)?;
        }
    }
    Ok(())
}

/// A box with one edge of another, where that is allowed; 180 degrees in its other spelling is another edge too.
fn other_box(random: &mut Random, region: &Region) -> Region {
    for _ in 0..20 {
        let other = uplink::region(random);
        let mut changed = *region;
        match random.below(4) {
            0 => changed.north = other.north,
            1 => changed.south = other.south,
            2 => changed.west = other.west,
            _ => changed.east = Edge { degrees: 180, letter: random.of(b"EW") },
        }
        if LATITUDE.degrees(changed.north) >= LATITUDE.degrees(changed.south) {
            return changed;
        }
    }
    *region
}

/// The rows of numbers of a configuration's short sections, with their limits.
fn rows(of: &mut Sections) -> [(&[Number], &mut [u16]); 7] {
    [
        (&ROUTINE, &mut of.airports),
        (&ENROUTE, &mut of.enroute),
        (&ASCENT, &mut of.ascent),
        (&ROUTINE, &mut of.routine6),
        (&DESCENT, &mut of.descent),
        (&ROUTINE, &mut of.routine8),
        (&HOURS, &mut of.hours),
    ]
}

fn numbers(random: &mut Random, queue: &mut Queue) -> Done {
    let held = uplink::configuration_of(random, Lists::Few);
    for row in 0..7 {
        let mut second = held;
        let limits: Vec<_> = rows(&mut second.sections)[row].0.iter().map(|number| number.low..=number.high).collect();
        for (index, limits) in limits.into_iter().enumerate() {
            for number in limits {
                second = held;
                rows(&mut second.sections)[row].1[index] = number;
                both(queue, &held, &second)?;
            }
        }
    }
    Ok(())
}

/// Pairs that differ in nothing, little, much, and all, into every room up to 3 bytes past what the command needs.
fn rooms(random: &mut Random, queue: &mut Queue, turn: usize) -> Done {
    let lists = if turn % 10 == 9 { Lists::Full } else { Lists::Few };
    let first = uplink::configuration_of(random, lists);
    let mut second = first;
    match turn % 5 {
        0 => (),
        1 => second.flags[random.below(7)] ^= 1,
        2 => second.sections.hours = [23, 23 - first.sections.hours[1]],
        _ => second = uplink::configuration_of(random, lists),
    }
    let mut out = [0; MOST];
    let (_, length) = difference(&first, &second, &mut out).expect("two valid configurations");
    (0..=length + 3).try_for_each(|room| queue.case(case(&first, &second, room)))
}

fn bytes(random: &mut Random, queue: &mut Queue, lists: Lists) -> Done {
    let held = meet::configuration(&uplink::configuration_of(random, lists));
    for at in 0..size_of::<Settings>() {
        for byte in 0..=255 {
            let mut changed = bytes_of(&held).to_vec();
            changed[at] = byte;
            let mut settings = Box::new([held, of_bytes(&changed)]);
            if byte % 2 == 1 {
                settings.swap(0, 1);
            }
            queue.case(Case { settings, room: MOST })?;
        }
    }
    Ok(())
}

/// Of the second program: a command that makes the one into the other sets all that is listed, and is not shorter.
fn made(random: &mut Random, queue: &mut Queue) -> Done {
    let first = uplink::configuration(random);
    let by = if random.percent(50) { uplink::command(random) } else { uplink::short_command(random) };
    let text = uplink::text(&by);
    let mut second = first;
    config::apply(&mut second, &text).expect("a valid configuration and an accepted text");
    let mut out = [0; MOST];
    let (of, length) = difference(&first, &second, &mut out).expect("two valid configurations");
    let sets = |item: u8| match item {
        1..=7 => by.flags[usize::from(item) - 1] != NO_CHANGE,
        _ => by.named[usize::from(item) - 12] != 0,
    };
    if length > text.len() || !of.items().all(sets) {
        let items: Vec<u8> = of.items().collect();
        let found = format!("{items:?} {}", out[..length].escape_ascii());
        return case(&first, &second, MOST).mismatch("no fewer", text.escape_ascii().to_string(), found);
    }
    ask(queue, &first, &second)
}

fn pair(random: &mut Random, queue: &mut Queue) -> Done {
    let first = uplink::configuration(random);
    let mut second = uplink::configuration(random);
    uplink::copy_sections(&first.sections, &mut second.sections, (random.next() & random.next()) as u32);
    for (to, from) in second.flags.iter_mut().zip(first.flags) {
        if random.percent(33) {
            *to = from;
        }
    }
    let room = if random.percent(80) { MOST } else { random.below(MOST + 2) };
    queue.case(case(&first, &second, room))
}

fn damaged(random: &mut Random, queue: &mut Queue) -> Done {
    let [first, second] = [(); 2].map(|()| uplink::configuration(random));
    let Case { mut settings, .. } = case(&first, &second, 0);
    let which = random.below(3);
    for index in (0..2).filter(|index| which == 2 || which == *index) {
        (0..1 + random.below(2)).for_each(|_| faults::settings(random, &mut settings[index]));
    }
    if random.percent(3) {
        settings[which % 2] = faults::noise(random);
    }
    let room = random.of(&[0, HEAD - 1, HEAD, MOST, MOST]);
    queue.case(Case { settings, room })
}
