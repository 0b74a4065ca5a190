//! Document 02, §10: the derived equivalent gust from raw acceleration, with the aircraft constants of source document 001,
//! section 2.2.4.1.

use super::{refuse, Refusal, RANGE};

/// The source's table as it is printed, first line first: aircraft, reference mass in tonnes, c1, c2, c3, c4, c5.
pub const PRINTED: [[&str; 7]; 36] = [
    ["A300B4", "120", "0.971", "2690", "79", "0.49", "19.6"],
    ["A310", "120", "19.6", "574", "32", "0.52", "23.5"],
    ["A318", "40", "34.7", "878", "28", "0.52", "40.3"],
    ["A319", "50", "33.9", "846", "29", "0.45", "39.6"],
    ["A320-200", "55", "35.9", "771", "27", "0.44", "40.7"],
    ["A321", "60", "34.8", "716", "28", "0.41", "39.3"],
    ["A330-200", "170", "5.88", "1010", "55", "0.44", "13.7"],
    ["A330-300", "170", "5.89", "1010", "54", "0.44", "13.6"],
    ["A340-200", "190", "6.36", "949", "54", "0.41", "13.7"],
    ["A340-300", "190", "6.34", "948", "54", "0.41", "13.6"],
    ["B727", "50", "6.45", "4580", "83", "0.54", "37.3"],
    ["B737-200", "30", "62.0", "351", "14", "0.64", "59.4"],
    ["B737-300", "40", "56.4", "328", "15", "0.56", "54.7"],
    ["B737-400", "40", "56.3", "329", "15", "0.56", "54.5"],
    ["B737-500", "40", "56.4", "303", "14", "0.57", "54.3"],
    ["B737-600", "40", "45.4", "420", "18", "0.57", "45.3"],
    ["B737-700", "50", "42.4", "374", "19", "0.54", "42.4"],
    ["B737-800", "50", "42.2", "350", "18", "0.57", "41.9"],
    ["B747-200", "250", "-2.41", "2230", "97", "0.65", "11.5"],
    ["B747-300", "200", "2.27", "1630", "81", "0.69", "13.3"],
    ["B747-400", "250", "-7.78", "3260", "120", "0.62", "10.2"],
    ["B747SP", "250", "7.44", "644", "48", "0.74", "12.4"],
    ["B757-200", "100", "29.2", "298", "22", "0.55", "30"],
    ["B757-300", "100", "28.9", "292", "21", "0.55", "29.7"],
    ["B767-200", "110", "12.8", "918", "46", "0.65", "19.8"],
    ["B767-300", "100", "13.1", "821", "42", "0.69", "19.4"],
    ["B767-400", "150", "12.9", "701", "45", "0.54", "18.3"],
    ["B777-200", "170", "12.6", "198", "21", "0.72", "13.0"],
    ["B777-300", "210", "13.1", "147", "19", "0.65", "12.9"],
    ["BAC111-200", "30", "55.8", "924", "27", "0.54", "60.1"],
    ["BAC111-475", "30", "50.6", "930", "28", "0.54", "55.3"],
    ["DC10-30", "200", "-6.45", "4080", "130", "0.56", "15.0"],
    ["Electra", "30", "48.9", "220", "9.1", "0.57", "41.2"],
    ["Fokker-100", "35", "52.9", "917", "27", "0.52", "57.2"],
    ["KingAir 100", "3", "70.6", "2280", "89", "0.74", "223."],
    ["L1011-500", "150", "11.7", "712", "47", "0.59", "17.1"],
];

/// A line's figures as whole numbers: kg, 1000 c1, 1,000,000 c2, 1000 c3, 100 c4 and 1000 c5.
#[derive(Clone, Copy, Debug, PartialEq, Eq)]
pub struct Constants {
    pub mass: i64,
    pub c: [i64; 5],
}

const TABLE: [Constants; 36] = {
    let mut table = [Constants { mass: 0, c: [0; 5] }; 36];
    let mut row = 0;
    while row < 36 {
        let [_, mass, c1, c2, c3, c4, c5] = PRINTED[row];
        let c = [shifted(c1, 3), shifted(c2, 6), shifted(c3, 3), shifted(c4, 2), shifted(c5, 3)];
        table[row] = Constants { mass: shifted(mass, 3), c };
        row += 1;
    }
    table
};

/// A printed decimal times ten to a power, with no digit lost: one that would be is refused by the compiler.
pub const fn shifted(printed: &str, power: u32) -> i64 {
    let bytes = printed.as_bytes();
    let below = bytes[0] == b'-';
    let (mut number, mut left, mut pointed) = (0, power, false);
    let mut at = if below { 1 } else { 0 };
    while at < bytes.len() {
        match bytes[at] {
            b'.' => {
                assert!(!pointed);
                pointed = true;
            }
            digit @ b'0'..=b'9' => {
                number = 10 * number + (digit - b'0') as i64;
                if pointed {
                    left = left.checked_sub(1).expect("as many decimals as the power at most");
                }
            }
            _ => panic!("a digit or a point"),
        }
        at += 1;
    }
    number *= 10_i64.pow(left);
    if below {
        -number
    } else {
        number
    }
}

/// What an aircraft measured: H in feet, m in kg, n in thousandths of g away from 1 g, V in knots.
#[derive(Clone, Copy, Debug, PartialEq, Eq)]
pub struct Felt {
    pub height: i32,
    pub mass: u32,
    pub acceleration: u32,
    pub speed: u32,
}

impl Felt {
    /// "H in feet from -1000 to 50,000; m from 1 to 500,000; 0 to 5000; V is 1 to 500 knots."
    fn ranged(&self) -> bool {
        (-1000..=50_000).contains(&self.height)
            && (1..=500_000).contains(&self.mass)
            && self.acceleration <= 5000
            && (1..=500).contains(&self.speed)
    }
}

/// The constants of a row; rows are counted from 0.
pub fn constants(row: u32) -> Option<&'static Constants> {
    TABLE.get(row as usize)
}

/// "Every division rounded down": by a number above 0.
#[inline(always)]
fn down(number: i64, by: i64) -> i64 {
    number.div_euclid(by)
}

/// The gust in tenths of a metre a second. "Refusals: 5 at 0 for a row that doesn't exist, an input outside its range, or a
/// gust below 0 or above 799."
#[inline(always)]
pub fn gust(row: u32, felt: &Felt) -> Result<i32, Refusal> {
    match constants(row) {
        Some(of) if felt.ranged() => match formula(of, felt, [down; 3]) {
            gust @ 0..=799 => Ok(gust as i32),
            _ => refuse(RANGE, 0),
        },
        _ => refuse(RANGE, 0),
    }
}

/// The request's formula with its three divisions, of which the comparison makes others to see where these count.
#[inline(always)]
pub fn formula(of: &Constants, felt: &Felt, [first, second, third]: [fn(i64, i64) -> i64; 3]) -> i64 {
    let a = parameter(of, felt, [first, second]);
    let Felt { mass, acceleration, speed, .. } = *felt;
    third(10 * a * i64::from(mass) * i64::from(acceleration), 1_000_000_000 * i64::from(speed))
}

/// A in thousandths: what the height gives, "plus a quotient".
#[inline(always)]
pub fn parameter(of: &Constants, felt: &Felt, [first, second]: [fn(i64, i64) -> i64; 2]) -> i64 {
    let [c1, c2, c3, c4, c5] = of.c;
    let mean = c1 + first(c2, c3 + i64::from(felt.height));
    mean + second(c4 * (mean - c5) * (i64::from(felt.mass) - of.mass), 100 * of.mass)
}
