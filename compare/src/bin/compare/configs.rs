//! Families of configurations: reset, validity, and commands applied in place.

use crate::queue;
use crate::run::{Done, Run};
use desk_compare::cases::config::Case;
use desk_compare::figures::NO_CHANGE;
use desk_compare::make::faults;
use desk_compare::make::uplink::{self, Lists};
use desk_compare::meet::uplink as meet;
use desk_compare::ours::uplink::Settings;
use desk_compare::ours::{bytes_of, of_bytes};
use desk_compare::random::Random;
use desk_compare::second::config;
use desk_compare::second::settings::MOST;

type Queue = queue::Queue<Case>;

pub fn families(run: &mut Run) {
    run.family("config-reset", "the configuration after reset, and commands applied to it", |random, queue| {
        queue.case(Case::Reset)?;
        let reset = meet::configuration(&config::reset());
        apply(queue, &reset, NO_CHANGE)?;
        (0..2000).try_for_each(|_| apply(queue, &reset, &uplink::text(&uplink::command(random))))
    });
    let turns = run.turns(150_000);
    run.family("config-valid", "random valid configurations x valid and damaged commands", |random, queue| {
        for _ in 0..turns {
            let valid = meet::configuration(&uplink::configuration(random));
            apply(queue, &valid, &text(random))?;
        }
        Ok(())
    });
    run.family("config-sections", "every choice of named sections, over full and empty lists", |random, queue| {
        for bits in 0..256 {
            for held in [Lists::Empty, Lists::Few, Lists::Full] {
                let valid = meet::configuration(&uplink::configuration_of(random, held));
                for lists in [Lists::Empty, Lists::Few, Lists::Full] {
                    apply(queue, &valid, &uplink::text(&uplink::command_of(random, bits, lists)))?;
                }
            }
        }
        Ok(())
    });
    run.family("config-bytes", "every byte of 3 configurations made every other", |random, queue| {
        let reset = meet::configuration(&config::reset());
        let [few, full] = [Lists::Few, Lists::Full].map(|lists| uplink::configuration_of(random, lists));
        [reset, meet::configuration(&few), meet::configuration(&full)].iter().try_for_each(|held| bytes(held, queue))
    });
    let turns = run.turns(150_000);
    run.family("config-damaged", "random configurations, one to three members changed, x commands", |random, queue| {
        for _ in 0..turns {
            let mut damaged = meet::configuration(&uplink::configuration(random));
            for _ in 0..1 + random.below(3) {
                faults::settings(random, &mut damaged);
            }
            apply(queue, &damaged, &text(random))?;
        }
        Ok(())
    });
    let turns = run.turns(10_000);
    run.family("config-noise", "any bytes as a configuration x any text", |random, queue| {
        for _ in 0..turns {
            let noise = faults::noise(random);
            apply(queue, &noise, &text(random))?;
        }
        Ok(())
    });
}

fn apply(queue: &mut Queue, settings: &Settings, text: &[u8]) -> Done {
    queue.case(Case::Apply { settings: Box::new(*settings), text: text.to_vec() })
}

/// A command's text; one in four is damaged, one in a hundred too long.
fn text(random: &mut Random) -> Vec<u8> {
    let mut text = uplink::text(&uplink::command(random));
    if random.percent(25) {
        uplink::damage(random, &mut text);
    }
    if random.percent(1) {
        text.resize(MOST + 1 + random.below(50), b'/');
    }
    text
}

fn bytes(held: &Settings, queue: &mut Queue) -> Done {
    for at in 0..size_of::<Settings>() {
        for byte in 0..=255 {
            let mut changed = bytes_of(held).to_vec();
            changed[at] = byte;
            apply(queue, &of_bytes(&changed), b"AWR041999999100400000/151/")?;
        }
    }
    Ok(())
}
