//! Joining.

use super::code;
use super::commands::{longest, H2, H3, H7, SEVEN};
use crate::figures::{JOIN, NO_CHANGE};
use crate::second::join::{join, Fault};
use crate::second::settings::MOST;

pub fn joined(first: &[u8], second: &[u8]) -> Vec<u8> {
    let mut out = [b'#'; MOST + 5];
    let length = join(first, second, &mut out).unwrap();
    assert!(out[length..].iter().all(|&byte| byte == b'#'));
    out[..length].to_vec()
}

#[test]
fn printed_join() {
    let [first, second, both] = JOIN;
    assert_eq!(joined(first, second), both);
    assert_eq!(join(first, second, &mut [0; 30]), Err(Fault { text: 0, refusal: code(2, 0) }));
    for text in [first, second, both, longest().as_bytes()] {
        assert_eq!(joined(text, NO_CHANGE), text);
        assert_eq!(joined(NO_CHANGE, text), text);
        assert_eq!(joined(text, text), text);
    }
}

#[test]
fn lists_are_replaced_and_the_larger_downlink_is_kept() {
    let one = format!("{H2}0110N10S010W010E00/").replace("9999999020", "9999999220");
    let other = format!("{H2}000120N10S010W010E/").replace("9999999020", "9999999120");
    assert_eq!(joined(one.as_bytes(), other.as_bytes()), other.replace("9999999120", "9999999220").as_bytes());
    let three = format!("{H3}0001ABCD00000/");
    let both = "AWR049999999223000000/0110N10S010W010E00/0001ABCD00000/";
    assert_eq!(joined(one.as_bytes(), three.as_bytes()), both.as_bytes());
    assert_eq!(joined(three.as_bytes(), one.as_bytes()), both.as_bytes());
    let [seven, eight] = [format!("{H7}{SEVEN}"), "AWR049999999000006089/1/0/2301/".to_string()];
    let all = format!("AWR049999999000006789/1/{SEVEN}0/2301/");
    assert_eq!(joined(seven.as_bytes(), eight.as_bytes()), all.as_bytes());
    assert_eq!(joined(eight.as_bytes(), seven.as_bytes()), all.as_bytes());
    let other = format!("{H7}004020011/");
    assert_eq!(joined(all.as_bytes(), other.as_bytes()), all.replace(SEVEN, "004020011/").as_bytes());
}

#[test]
fn refusals_in_order() {
    let long = [b'x'; MOST + 1];
    let cases: [([&[u8]; 2], u8, _); 6] = [
        ([b"", &long], 1, code(8, 0)),
        ([&long, b""], 1, code(1, 0)),
        ([NO_CHANGE, &long], 2, code(1, 0)),
        ([NO_CHANGE, b"AWR04"], 2, code(8, 5)),
        ([b"AWR042", b""], 1, code(4, 5)),
        ([NO_CHANGE, NO_CHANGE], 0, code(2, 0)),
    ];
    for ([first, second], text, refusal) in cases {
        assert_eq!(join(first, second, &mut []), Err(Fault { text, refusal }));
    }
}
