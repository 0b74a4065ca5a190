//! A row of gusts.

use crate::linked;
use crate::measure::{best, pass, Bench, INPUTS};
use desk_compare::random::Random;
use desk_compare::second::gust::{constants, gust, Felt};
use desk_compare::second::Refusal;

#[inline(never)]
fn second_gust(row: u32, height: i32, mass: u32, acceleration: u32, speed: u32) -> Result<i32, Refusal> {
    gust(row, &Felt { height, mass, acceleration, speed })
}

/// Of every aircraft, at its reference mass or within a third of it, in air as it mostly is.
pub fn rows(bench: &Bench) {
    let mut random = Random::new(1, "bench-gust");
    let one = |index: usize| {
        let row = index as u32 % 36;
        let usual = constants(row).expect("a row").mass as i32;
        let felt = Felt {
            height: random.between(0, 41_000),
            mass: (usual + random.between(-usual / 3, usual / 3)) as u32,
            acceleration: random.between(0, 500) as u32,
            speed: random.between(150, 320) as u32,
        };
        (row, felt)
    };
    let inputs: Vec<(u32, Felt)> = (0..INPUTS).map(one).collect();
    bench.row("gust (256 of all 36 rows)", INPUTS, None, || {
        best(
            || pass(&inputs, |(row, f)| linked::gust(*row, f.height, f.mass, f.acceleration, f.speed)),
            || pass(&inputs, |(row, f)| second_gust(*row, f.height, f.mass, f.acceleration, f.speed)),
        )
    });
}
