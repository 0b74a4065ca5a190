//! The board.

use super::code;
use super::commands::longest;
use crate::figures::{JOIN, NO_CHANGE};
use crate::second::board::{add, check, take, Slot};
use crate::second::settings::MOST;

const FREE: Slot = Slot { designator: *b"XY0001", length: 0 };

#[test]
fn joins_in_order_and_hands_over() {
    let [first, second, both] = JOIN;
    let (mut slots, mut area) = ([FREE; 2], [b'#'; 2 * MOST]);
    assert_eq!(add(&mut slots, &mut area, b"XY0001", first), Ok(26));
    assert_eq!(add(&mut slots, &mut area, b"XY0002", NO_CHANGE), Ok(22));
    assert_eq!(add(&mut slots, &mut area, b"XY0003", NO_CHANGE), Err(code(9, 0)));
    assert_eq!(add(&mut slots, &mut area, b"XY0001", second), Ok(31));
    assert_eq!(slots[0], Slot { designator: *b"XY0001", length: 31 });
    assert_eq!((&area[..31], &area[31..MOST]), (both, &[b'#'; MOST - 31][..]));
    assert_eq!(take(&mut slots, &area, b"XY0001", &mut [0; 30]), Err(code(2, 0)));
    let mut out = [b'-'; 40];
    assert_eq!(take(&mut slots, &area, b"XY0001", &mut out), Ok(31));
    assert_eq!((&out[..31], &out[31..]), (both, &[b'-'; 9][..]));
    assert_eq!(slots[0], FREE);
    assert_eq!(take(&mut slots, &area, b"XY0001", &mut []), Err(code(11, 0)));
    assert_eq!(add(&mut slots, &mut area, b"XY0002", second), Ok(31), "its own slot, though a lower one is free");
    assert_eq!(add(&mut slots, &mut area, b"XY0003", NO_CHANGE), Ok(22), "a freed slot is used again");
    assert_eq!((slots[0].designator, &area[..22], &area[22..31]), (*b"XY0003", &NO_CHANGE[..], &both[22..]));
}

#[test]
fn a_join_that_shortens_leaves_the_bytes_behind() {
    let (mut slots, mut area) = ([FREE], [b'#'; MOST]);
    assert_eq!(add(&mut slots, &mut area, b"XY0001", longest().as_bytes()), Ok(MOST));
    let short = b"AWR049999999020000000/0000/";
    assert_eq!(add(&mut slots, &mut area, b"XY0001", short), Ok(MOST - 448));
    assert_eq!(&area[MOST - 448..], &longest().as_bytes()[MOST - 448..]);
}

#[test]
fn no_slots() {
    assert_eq!(check(&[], &[]), Ok(()));
    assert_eq!(add(&mut [], &mut [], b"XY0001", NO_CHANGE), Err(code(9, 0)));
    assert_eq!(take(&mut [], &[], b"XY0001", &mut []), Err(code(11, 0)));
}

#[test]
fn boards_not_valid() {
    let used = |designator: &[u8; 6], length| Slot { designator: *designator, length };
    let mut area = [b'#'; 3 * MOST];
    for at in [0, MOST] {
        area[at..at + 22].copy_from_slice(NO_CHANGE);
    }
    let fine = [used(b"XY0001", 22), used(b"XY0002", 22), FREE];
    assert_eq!(check(&fine, &area), Ok(()), "a free slot may hold a used one's designator");
    let boards = [
        [used(b"XY0001", 22), used(b"XY0001", 22), FREE],
        [used(b"XY0001", 22), used(b"XY000a", 22), FREE],
        [used(b"XY0001", 21), used(b"XY0002", 22), FREE],
        [used(b"XY0001", 23), used(b"XY0002", 22), FREE],
        [used(b"XY0001", 22), used(b"XY0002", MOST as u16 + 1), FREE],
        [used(b"XY0001", 22), used(b"XY0002", 0xffff), FREE],
        [used(b"XY0001", 22), used(b"XY0002", 22), used(b"XY0003", 22)],
    ];
    for mut slots in boards {
        let was = slots;
        assert_eq!(check(&slots, &area), Err(code(10, 0)), "{slots:?}");
        assert_eq!(add(&mut slots, &mut area, b"", &[0; 900]), Err(code(10, 0)));
        assert_eq!(take(&mut slots, &area, b"", &mut []), Err(code(10, 0)));
        assert_eq!(slots, was);
    }
    assert_eq!(check(&fine, &area[1..]), Err(code(10, 0)));
    assert_eq!(check(&[FREE; 65], &[0; 65 * MOST]), Err(code(10, 0)));
    assert_eq!(check(&[FREE; 64], &[0; 64 * MOST]), Ok(()));
    assert_eq!(check(&[FREE; 64], &[0; 64 * (MOST - 10)]), Err(code(10, 0)), "the text size before section 7");
}

#[test]
fn order_of_refusals() {
    let (mut slots, mut area) = ([FREE], [0; MOST]);
    for designator in [&b""[..], b"XY000", b"XY00011", b"XY000 ", b"xy0001"] {
        assert_eq!(add(&mut slots, &mut area, designator, b"AWR04"), Err(code(4, 0)));
        assert_eq!(take(&mut slots, &area, designator, &mut []), Err(code(4, 0)));
    }
    assert_eq!(add(&mut slots, &mut area, b"XY0001", b"AWR04"), Err(code(8, 5)));
    assert_eq!(add(&mut [], &mut [], b"XY0001", b"AWR04"), Err(code(8, 5)), "the command's own before 9");
}
