//! Gusts worked out here: document 02, §10, and the table of source document 001.

use super::code;
use crate::random::Random;
use crate::second::gust::{constants, gust, shifted, Felt, PRINTED};

/// The table's figures as document 02 scales them, put down by themselves: kg, 1000 c1, 1,000,000 c2, 1000 c3, 100 c4,
/// 1000 c5.
const SCALED: [[i64; 6]; 36] = [
    [120000, 971, 2690000000, 79000, 49, 19600],
    [120000, 19600, 574000000, 32000, 52, 23500],
    [40000, 34700, 878000000, 28000, 52, 40300],
    [50000, 33900, 846000000, 29000, 45, 39600],
    [55000, 35900, 771000000, 27000, 44, 40700],
    [60000, 34800, 716000000, 28000, 41, 39300],
    [170000, 5880, 1010000000, 55000, 44, 13700],
    [170000, 5890, 1010000000, 54000, 44, 13600],
    [190000, 6360, 949000000, 54000, 41, 13700],
    [190000, 6340, 948000000, 54000, 41, 13600],
    [50000, 6450, 4580000000, 83000, 54, 37300],
    [30000, 62000, 351000000, 14000, 64, 59400],
    [40000, 56400, 328000000, 15000, 56, 54700],
    [40000, 56300, 329000000, 15000, 56, 54500],
    [40000, 56400, 303000000, 14000, 57, 54300],
    [40000, 45400, 420000000, 18000, 57, 45300],
    [50000, 42400, 374000000, 19000, 54, 42400],
    [50000, 42200, 350000000, 18000, 57, 41900],
    [250000, -2410, 2230000000, 97000, 65, 11500],
    [200000, 2270, 1630000000, 81000, 69, 13300],
    [250000, -7780, 3260000000, 120000, 62, 10200],
    [250000, 7440, 644000000, 48000, 74, 12400],
    [100000, 29200, 298000000, 22000, 55, 30000],
    [100000, 28900, 292000000, 21000, 55, 29700],
    [110000, 12800, 918000000, 46000, 65, 19800],
    [100000, 13100, 821000000, 42000, 69, 19400],
    [150000, 12900, 701000000, 45000, 54, 18300],
    [170000, 12600, 198000000, 21000, 72, 13000],
    [210000, 13100, 147000000, 19000, 65, 12900],
    [30000, 55800, 924000000, 27000, 54, 60100],
    [30000, 50600, 930000000, 28000, 54, 55300],
    [200000, -6450, 4080000000, 130000, 56, 15000],
    [30000, 48900, 220000000, 9100, 57, 41200],
    [35000, 52900, 917000000, 27000, 52, 57200],
    [3000, 70600, 2280000000, 89000, 74, 223000],
    [150000, 11700, 712000000, 47000, 59, 17100],
];

fn felt(height: i32, mass: u32, acceleration: u32, speed: u32) -> Felt {
    Felt { height, mass, acceleration, speed }
}

#[test]
fn decimals() {
    for (printed, power, want) in [
        ("0.971", 3, 971),
        ("223.", 3, 223_000),
        ("-7.78", 3, -7780),
        ("9.1", 3, 9100),
        ("0.49", 2, 49),
        ("30", 3, 30_000),
        ("62.0", 3, 62_000),
        ("4580", 6, 4_580_000_000),
        ("-0.5", 1, -5),
    ] {
        assert_eq!(shifted(printed, power), want, "{printed}");
    }
    for printed in ["0.9711", "1.2.3", "1,5", "--1", " 1", "1e3"] {
        assert!(std::panic::catch_unwind(|| shifted(printed, 3)).is_err(), "{printed}");
    }
}

#[test]
fn printed_table() {
    for (row, [mass, c @ ..]) in SCALED.into_iter().enumerate() {
        let of = constants(row as u32).unwrap();
        assert_eq!((of.mass, of.c), (mass, c), "{}", PRINTED[row][0]);
    }
    assert_eq!(constants(36), None);
    assert_eq!(constants(u32::MAX), None);
    let mut names = PRINTED.map(|line| line[0]);
    assert!(names.is_sorted(), "as the source has them");
    names.sort_unstable();
    assert!(names.windows(2).all(|pair| pair[0] != pair[1]));
}

/// Worked by hand from the request's sentences.
#[test]
fn known() {
    // The first: 35,900 + 771,000,000 / 37,000 is 56,737; 44 x 16,037 x -679 / 5,500,000 is -87.1, so -88 and A 56,649; 10 x
    // 56,649 x 54,321 x 1303 / 101,000,000,000 is 396.99. With -87 it would be 397.
    let cases = [
        (4, felt(10_000, 54_321, 1303, 101), Ok(396)),
        (34, felt(0, 10_000, 1, 500), Err(code(5, 0))),
        (34, felt(0, 10_000, 0, 500), Ok(0)),
        (0, felt(0, 120_000, 1000, 300), Ok(140)),
        (36, felt(0, 120_000, 1000, 300), Err(code(5, 0))),
        (u32::MAX, felt(0, 120_000, 1000, 300), Err(code(5, 0))),
    ];
    for (row, felt, want) in cases {
        assert_eq!(gust(row, &felt), want, "{row} {felt:?}");
    }
}

#[test]
fn limits() {
    let fine = felt(0, 120_000, 1000, 300);
    for height in [-1000, 50_000] {
        assert!(gust(0, &Felt { height, ..fine }).is_ok());
    }
    for height in [-1001, 50_001, i32::MIN, i32::MAX] {
        assert_eq!(gust(0, &Felt { height, ..fine }), Err(code(5, 0)));
    }
    for (mass, acceleration) in [(1, 1000), (500_000, 100)] {
        assert!(gust(0, &Felt { mass, acceleration, ..fine }).is_ok());
    }
    for mass in [0, 500_001, u32::MAX] {
        assert_eq!(gust(0, &Felt { mass, acceleration: 0, ..fine }), Err(code(5, 0)));
    }
    assert!(gust(0, &Felt { acceleration: 5000, ..fine }).is_ok());
    assert_eq!(gust(0, &Felt { acceleration: 0, ..fine }), Ok(0));
    for acceleration in [5001, u32::MAX] {
        assert_eq!(gust(0, &Felt { acceleration, mass: 1, ..fine }), Err(code(5, 0)));
    }
    for (speed, acceleration) in [(1, 1), (500, 1000)] {
        assert!(gust(0, &Felt { speed, acceleration, ..fine }).is_ok());
    }
    for speed in [0, 501, u32::MAX] {
        assert_eq!(gust(0, &Felt { speed, acceleration: 0, ..fine }), Err(code(5, 0)));
    }
}

/// The greatest whole number not above a quotient, by its own definition, in numbers that hold every product.
fn floor(number: i128, by: i128) -> i128 {
    let near = number / by;
    let floor = (near - 1..=near + 1).rev().find(|whole| whole * by <= number).unwrap();
    assert!(floor * by <= number && number < (floor + 1) * by);
    floor
}

/// The request's sentences once more, on the numbers of the other table.
#[test]
fn by_the_sentences() {
    let mut random = Random::new(1, "gusts");
    let mut met = [0; 3];
    for _ in 0..200_000 {
        let row = random.below(36);
        let felt = felt(
            random.between(-1000, 50_000),
            random.between(1, 500_000) as u32,
            random.between(0, 5000) as u32,
            random.between(1, 500) as u32,
        );
        let [reference, c1, c2, c3, c4, c5] = SCALED[row].map(i128::from);
        let [h, m] = [i128::from(felt.height), i128::from(felt.mass)];
        let mean = c1 + floor(c2, c3 + h);
        let a = mean + floor(c4 * (mean - c5) * (m - reference), 100 * reference);
        let want = floor(10 * a * m * i128::from(felt.acceleration), 1_000_000_000 * i128::from(felt.speed));
        let got = gust(row as u32, &felt);
        if want < 0 {
            met[0] += 1;
        } else if want > 799 {
            met[1] += 1;
        } else {
            met[2] += 1;
        }
        let want = if (0..800).contains(&want) { Ok(want as i32) } else { Err(code(5, 0)) };
        assert_eq!(got, want, "{row} {felt:?}");
    }
    assert!(met.iter().all(|&met| met > 1000), "{met:?}");
}
