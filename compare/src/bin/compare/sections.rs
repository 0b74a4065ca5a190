//! Families of single sections: asked of accepted texts, of every truncation, and of texts whose header, counts, contents
//! or lengths are others.

use crate::queue;
use crate::run::{Done, Run};
use desk_compare::cases::section::Case;
use desk_compare::cases::Case as _;
use desk_compare::figures::{JOIN, NO_CHANGE};
use desk_compare::make::odd_byte;
use desk_compare::make::uplink::{self, Lists};
use desk_compare::random::Random;
use desk_compare::second::part::find;
use desk_compare::second::settings::{HEAD, MOST};
use desk_compare::second::Refusal;
use std::ops::Range;

type Queue = queue::Queue<Case>;

/// A header that names sections 2 and 3.
const TWO: &str = "AWR049999999023000000/";

/// What follows it, the section asked for, and its part or the refusal with its place.
type Corner = (&'static str, u8, Result<Range<usize>, (u8, u32)>);

const CORNERS: [Corner; 12] = [
    ("", 2, Err((8, 22))),
    ("", 4, Ok(0..0)),
    ("00", 2, Err((8, 24))),
    ("01", 2, Err((8, 22))),
    ("0000", 2, Err((8, 22))),
    ("0000?", 2, Ok(22..27)),
    ("0000?", 3, Err((8, 27))),
    ("0000?00000000??", 3, Ok(27..37)),
    ("0000?00000000??", 9, Ok(0..0)),
    ("0017", 3, Err((5, 24))),
    ("00x0", 3, Err((4, 24))),
    ("", 10, Err((5, 0))),
];

pub fn families(run: &mut Run) {
    run.family("section-corners", "the corners of document 02, §7, both programs", |_, queue| {
        CORNERS.into_iter().try_for_each(|known| corner(queue, known))
    });
    run.family("section-numbers", "every number that a byte holds, of accepted and refused texts", |random, queue| {
        let mut texts = shapes(random);
        texts.extend([vec![], b"AWR05".to_vec(), vec![b'/'; MOST], vec![b'/'; MOST + 1], vec![b'/'; 2000]]);
        texts.into_iter().try_for_each(|text| queue.case(Case { text, numbers: (0..=255).collect() }))
    });
    run.family("section-named", "every choice of named sections, with empty, few and full lists", |random, queue| {
        for bits in 0..256 {
            for lists in [Lists::Empty, Lists::Few, Lists::Any, Lists::Full] {
                all(queue, &uplink::text(&uplink::command_of(random, bits, lists)))?;
            }
        }
        Ok(())
    });
    run.family(
        "section-length",
        "every truncation, and every extension to 900 bytes, of 9 commands",
        |random, queue| shapes(random).iter().try_for_each(|shape| lengths(shape, queue)),
    );
    run.family(
        "section-substitution",
        "every byte of 9 commands made every other; of full lists, header, counts and what is near",
        |random, queue| shapes(random).iter().try_for_each(|shape| substitutions(shape, queue)),
    );
    run.family(
        "section-counts",
        "every two bytes near digits as each count, cut at each place near the ends that it gives",
        counts,
    );
    random_families(run);
}

fn random_families(run: &mut Run) {
    let turns = run.turns(100_000);
    run.family("section-valid", "random valid commands", |random, queue| {
        (0..turns).try_for_each(|_| all(queue, &uplink::text(&uplink::command(random))))
    });
    let turns = run.turns(200_000);
    run.family("section-damaged", "random commands, one to five damages each", |random, queue| {
        for _ in 0..turns {
            let mut damaged = uplink::text(&uplink::command(random));
            for _ in 0..1 + random.below(5) {
                uplink::damage(random, &mut damaged);
            }
            all(queue, &damaged)?;
        }
        Ok(())
    });
    let turns = run.turns(50_000);
    run.family("section-noise", "a header, then any bytes, with and without counts among them", |random, queue| {
        for _ in 0..turns {
            let mut text = uplink::text(&uplink::command(random))[..HEAD].to_vec();
            let length = random.of(&[30, 60, 200, MOST + 5]);
            text.resize(HEAD + random.below(length), b'0');
            for byte in &mut text[HEAD..] {
                *byte = if random.percent(40) { random.of(b"000012") } else { odd_byte(random) };
            }
            all(queue, &text)?;
        }
        Ok(())
    });
}

/// Every section there is, and one on either side.
fn all(queue: &mut Queue, text: &[u8]) -> Done {
    queue.case(Case { text: text.to_vec(), numbers: (1..=10).collect() })
}

/// A known answer against the second program, and the same asked of ours.
fn corner(queue: &mut Queue, (rest, number, want): Corner) -> Done {
    let case = Case { text: format!("{TWO}{rest}").into_bytes(), numbers: vec![number] };
    let (got, want) = (find(number, &case.text), want.map_err(|(code, place)| Refusal { code, place }));
    if got != want {
        return case.mismatch("a corner of document 02, §7", format!("document 02: {want:?}"), format!("{got:?}"));
    }
    queue.case(case)
}

/// Commands of different shape: nothing named, the printed join, every section at its shortest, with few entries and
/// full, one with boxes alone, one with airfields alone, one without lists, and one that names the last section only.
fn shapes(random: &mut Random) -> Vec<Vec<u8>> {
    let mut shape = |bits, lists| uplink::text(&uplink::command_of(random, bits, lists));
    let mut shapes = vec![NO_CHANGE.to_vec(), JOIN[2].to_vec()];
    shapes.extend([shape(0xff, Lists::Empty), shape(0xff, Lists::Few), shape(0xff, Lists::Full)]);
    shapes.extend([shape(0x81, Lists::Few), shape(0x82, Lists::Few), shape(0xfc, Lists::Empty)]);
    shapes.push(shape(0x80, Lists::Empty));
    shapes
}

fn lengths(shape: &[u8], queue: &mut Queue) -> Done {
    for filler in [b'/', b'0'] {
        let mut long = shape.to_vec();
        long.resize(900, filler);
        (0..=long.len()).try_for_each(|length| all(queue, &long[..length]))?;
    }
    Ok(())
}

/// The bytes that a finder may look at, and some round them: all of a short text, and of a long one those within three
/// bytes of a count or of a section's end.
fn looked_at(shape: &[u8]) -> Vec<usize> {
    let mut ends = vec![HEAD];
    for number in 2..=9 {
        let part = find(number, shape).expect("an accepted text");
        ends.push(part.end);
        let entry = if number == 2 { 14 } else { 4 };
        let mut at = part.start;
        for _ in 0..[2, 4, 0, 0, 0, 0, 0, 0][usize::from(number) - 2] * usize::from(!part.is_empty()) {
            ends.push(at);
            let count = usize::from(shape[at] - b'0') * 10 + usize::from(shape[at + 1] - b'0');
            at += 2 + entry * count;
        }
    }
    let near = |at: &usize| *at < HEAD || ends.iter().any(|end| at.abs_diff(*end) <= 3);
    (0..shape.len()).filter(|at| shape.len() < 200 || near(at)).collect()
}

fn substitutions(shape: &[u8], queue: &mut Queue) -> Done {
    for at in looked_at(shape) {
        let mut changed = shape.to_vec();
        for byte in 0..=255 {
            changed[at] = byte;
            all(queue, &changed)?;
        }
    }
    Ok(())
}

/// Each of the six counts of sections 2 and 3 in turn is every two bytes near digits; the others are small. The text ends
/// at, before and behind each place where the counts have the section, or a count, begin or end.
fn counts(random: &mut Random, queue: &mut Queue) -> Done {
    let bytes = b"/0123456789:";
    for which in 0..6 {
        for pair in 0..bytes.len() * bytes.len() {
            let spelt = [bytes[pair / bytes.len()], bytes[pair % bytes.len()]];
            let mut text = TWO.replace("23000000", "23000009").into_bytes();
            let mut ends = Vec::new();
            for list in 0..6 {
                let count = random.below(2);
                let (digits, count) =
                    if list == which { (spelt, number(spelt)) } else { ([b'0', b'0' + count as u8], count) };
                ends.push(text.len());
                text.extend(digits);
                text.resize(text.len() + count * if list < 2 { 14 } else { 4 }, b'.');
                text.resize(text.len() + usize::from(list == 1) + 2 * usize::from(list == 5), b'?');
            }
            ends.extend([text.len(), text.len() + 5]);
            text.extend(b"2301/");
            text.extend(b"more");
            for end in ends {
                for length in end.saturating_sub(2)..=end + 3 {
                    all(queue, &text[..length.min(text.len())])?;
                }
            }
        }
    }
    Ok(())
}

/// The number that two bytes spell, where they are digits; else 0.
fn number([tens, ones]: [u8; 2]) -> usize {
    match [tens, ones].map(|byte| byte.is_ascii_digit()) {
        [true, true] => usize::from(tens - b'0') * 10 + usize::from(ones - b'0'),
        _ => 0,
    }
}
