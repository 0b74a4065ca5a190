//! Document 01, "Figures to hold against the code", with the places that document 02, §11, gives to code 4.

/// What a printed packed field stands for.
#[derive(Clone, Copy, Debug, PartialEq, Eq)]
pub enum Printed {
    Figure(i32),
    Missing,
    /// A code and its place.
    Code(u8, u32),
}

use Printed::{Code, Figure, Missing};

pub const PACKED: [(&[u8], Printed); 12] = [
    (b"INZ", Figure(-2245)),
    (b"LAE", Figure(2014)),
    (b"D5", Figure(-275)),
    (b" U", Figure(10)),
    (b" UK", Figure(420)),
    (b" YZ9F", Figure(952_375)),
    (b"  K", Figure(0)),
    (b"KK", Figure(20)),
    (b"JJ", Figure(-21)),
    (b"K5", Code(6, 0)),
    (b"//", Missing),
    (b"/5", Code(4, 1)),
];

/// The printed report: one observation, no gust or vapour.
pub const REPORT: &[u8; 220] = b"ABCDEFGH\r\nAMDAR3XY0001\r\n\
A  K  K    K  K K K K/////////////////////////////\r\n\
//////////////////////////////////////////////\r\n\
//////////////////////////////////////////////\r\n\
//////////////////////////////////////////////\r\n";

/// The command that changes nothing.
pub const NO_CHANGE: &[u8; 22] = b"AWR049999999000000000/";

/// Two commands and what they join to.
pub const JOIN: [&[u8]; 3] =
    [b"AWR041999999000400000/151/", b"AWR049199999100400009/300/2301/", b"AWR041199999100400009/300/2301/"];

/// The status sheet that source document 001, section 2.3.4, prints, in the lines of docs/STATUS-SHEET.md.
pub fn sheet() -> Vec<u8> {
    let mut lines = vec![
        "- AMDARSTATUS3 AU0115".to_string(),
        "AD10/50 RR421 DR50/10".to_string(),
        "T1 690 T2 500  0".to_string(),
        "S2 SP1 SC5 SD5 I1".to_string(),
        "B0     0/  5400 -5399/  9600 1".to_string(),
        "B1     0/  9600 -3000/ -9600 1".to_string(),
    ];
    lines.extend((2..10).map(|index| format!("B{index}     0/     0     0/     0 0")));
    for row in 1..=10 {
        let port = |which| match which {
            1 => "YPDN/0",
            2 => "WSSS/1",
            _ => "0000/0",
        };
        let cells: Vec<String> = (row..=50).step_by(10).map(|which| format!("A{which:<2}{}", port(which))).collect();
        lines.push(cells.join(" "));
    }
    lines.iter().flat_map(|line| line.bytes().chain(*b"\r\n")).collect()
}
