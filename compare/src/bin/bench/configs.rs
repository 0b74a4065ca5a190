//! Rows of the configuration: validity, and commands applied in place to one that stays as the call before left it.

use crate::linked::uplink as linked;
use crate::measure::{best, pass, Bench, INPUTS};
use desk_compare::make::uplink::{command_of, configuration_of, short_command, text, Lists};
use desk_compare::meet::uplink as meet;
use desk_compare::random::Random;
use desk_compare::second::difference::{difference, Difference};
use desk_compare::second::settings::{Configuration, MOST};
use desk_compare::second::{config, Refusal};
use std::hint::black_box;

#[inline(never)]
fn second_reset() -> Configuration {
    config::reset()
}

#[inline(never)]
fn second_valid(configuration: &Configuration) -> Result<(), Refusal> {
    config::valid(configuration)
}

#[inline(never)]
fn second_apply(configuration: &mut Configuration, text: &[u8]) -> Result<u8, Refusal> {
    config::apply(configuration, text)
}

#[inline(never)]
fn second_difference(
    first: &Configuration,
    second: &Configuration,
    out: &mut [u8],
) -> Result<(Difference, usize), Refusal> {
    difference(first, second, out)
}

/// Of pairs of configurations, into a room that holds any command.
fn differences(pairs: &[[Configuration; 2]]) -> [f64; 2] {
    let ours: Vec<_> =
        pairs.iter().map(|[one, other]| [meet::configuration(one), meet::configuration(other)]).collect();
    let (mut one, mut other) = ([0; MOST], [0; MOST]);
    best(
        || pass(&ours, |[first, second]| linked::difference(first, second, black_box(&mut one))),
        || pass(pairs, |[first, second]| second_difference(first, second, black_box(&mut other))),
    )
}

fn applies(held: &Configuration, texts: &[Vec<u8>]) -> [f64; 2] {
    let (mut one, mut other) = (meet::configuration(held), *held);
    best(
        || pass(texts, |text| linked::apply(black_box(&mut one), text)),
        || pass(texts, |text| second_apply(black_box(&mut other), text)),
    )
}

pub fn rows(bench: &Bench) {
    let mut random = Random::new(1, "bench-config");
    let calls = [(); INPUTS];
    bench.row("reset", INPUTS, None, || {
        best(|| pass(&calls, |()| linked::reset()), || pass(&calls, |()| second_reset()))
    });
    let reset = config::reset();
    let full = configuration_of(&mut random, Lists::Full);
    for (name, held) in [("validity after reset", reset), ("validity, full lists", full)] {
        let (one, other) = (vec![meet::configuration(&held); INPUTS], vec![held; INPUTS]);
        bench.row(name, INPUTS, None, || best(|| pass(&one, linked::settings_valid), || pass(&other, second_valid)));
    }
    let short: Vec<_> = (0..INPUTS).map(|_| text(&short_command(&mut random))).collect();
    bench.row("apply in place, short commands after reset", INPUTS, None, || applies(&reset, &short));
    let flags: Vec<_> = (0..INPUTS).map(|_| text(&command_of(&mut random, 0, Lists::Empty))).collect();
    bench.row("apply in place, flags alone, full lists held", INPUTS, None, || applies(&full, &flags));
    let long: Vec<_> = (0..INPUTS).map(|_| text(&command_of(&mut random, 0xff, Lists::Full))).collect();
    bench.row(&format!("apply in place, {MOST} bytes, full lists held"), INPUTS, None, || applies(&full, &long));
    let [few, many] = [Lists::Few, Lists::Full].map(|lists| {
        let held: Vec<_> = (0..=INPUTS).map(|_| configuration_of(&mut random, lists)).collect();
        held.windows(2).map(|pair| [pair[0], pair[1]]).collect::<Vec<_>>()
    });
    let equal: Vec<_> = many.iter().map(|[one, _]| [*one, *one]).collect();
    let one = |[from, _]: &[Configuration; 2]| {
        let mut to = *from;
        to.flags[3] ^= 1;
        to.sections.hours[0] = 23 - to.sections.hours[0];
        [*from, to]
    };
    let one: Vec<_> = few.iter().map(one).collect();
    bench.row("difference, equal, full lists", INPUTS, None, || differences(&equal));
    bench.row("difference, a flag and the hours, few entries", INPUTS, None, || differences(&one));
    bench.row("difference, nearly everything, few entries", INPUTS, None, || differences(&few));
    bench.row("difference, nearly everything, full lists", INPUTS, None, || differences(&many));
}
