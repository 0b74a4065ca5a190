//! The list of used slots in rising order of designator.

use super::code;
use crate::figures::NO_CHANGE;
use crate::second::board::Slot;
use crate::second::settings::MOST;
use crate::second::tails::{add, find, list, make, take, Found};

fn slot(name: &[u8; 6], length: u16) -> Slot {
    Slot { designator: *name, length }
}

#[test]
fn lists() {
    let slots = [slot(b"ZZ0001", 22), slot(b"AA0001", 0), slot(b"AA0002", 22), slot(b"MM0001", 22)];
    assert_eq!(list(&slots), [2, 3, 0, 255]);
    assert_eq!(find(&slots, &[2, 3, 0, 255], b"MM0001"), Ok(Found { slot: Ok(3), before: 1 }));
    assert_eq!(find(&slots, &[2, 3, 0, 255], b"ZZ0001"), Ok(Found { slot: Ok(0), before: 2 }));
    assert_eq!(find(&slots, &[2, 3, 0, 255], b"AA0001"), Ok(Found { slot: Err(code(11, 0)), before: 0 }));
    assert_eq!(find(&slots, &[2, 3, 0, 255], b"ZZ0002"), Ok(Found { slot: Err(code(11, 0)), before: 3 }));
    assert_eq!(find(&slots, &[2, 3, 0, 255], b"mm0001"), Err(code(4, 0)));
    for wrong in [[2, 0, 3, 255], [2, 3, 0, 1], [2, 3, 3, 255], [2, 3, 255, 255], [2, 3, 0, 254], [0, 2, 3, 255]] {
        assert_eq!(find(&slots, &wrong, b"mm0001"), Err(code(10, 0)), "{wrong:?}");
    }
    assert_eq!(find(&slots, &[2, 3, 0], b"MM0001"), Err(code(10, 0)));
    assert_eq!(find(&[], &[], b"MM0001"), Ok(Found { slot: Err(code(11, 0)), before: 0 }));
    let twice = [slot(b"AA0001", 22), slot(b"AA0001", 22)];
    assert_eq!(find(&twice, &[0, 1], b"AA0001"), Err(code(10, 0)));
    assert_eq!(make(&twice, &mut [0; 2]), Err(code(10, 0)));
}

#[test]
fn kept() {
    let mut slots = [slot(&[0; 6], 0); 3];
    let mut area = vec![0; 3 * MOST];
    let mut tails = [7; 3];
    assert_eq!(make(&slots, &mut tails), Ok(()));
    assert_eq!(tails, [255; 3]);
    for (name, want) in
        [(b"MM0001", [0, 255, 255]), (b"AA0001", [1, 0, 255]), (b"ZZ0001", [1, 0, 2]), (b"AA0001", [1, 0, 2])]
    {
        assert_eq!(add(&mut slots, &mut area, &mut tails, name, NO_CHANGE), Ok(22));
        assert_eq!(tails, want);
    }
    assert_eq!(add(&mut slots, &mut area, &mut tails, b"BB0001", NO_CHANGE), Err(code(9, 0)));
    let mut out = [0; 30];
    assert_eq!(take(&mut slots, &area, &mut tails, b"MM0001", &mut out[..21]), Err(code(2, 0)));
    assert_eq!(tails, [1, 0, 2]);
    assert_eq!(take(&mut slots, &area, &mut tails, b"MM0001", &mut out), Ok(22));
    assert_eq!(tails, [1, 2, 255]);
    assert_eq!(add(&mut slots, &mut area, &mut tails, b"BB0001", NO_CHANGE), Ok(22));
    assert_eq!(tails, [1, 0, 2]);
    tails = [0, 1, 2];
    assert_eq!(take(&mut slots, &area, &mut tails, b"bb0001", &mut out), Err(code(10, 0)));
}
