//! Families of command records: written by both programs, compared byte for byte in and round the room, and read back.

use crate::queue;
use crate::run::{Done, Run};
use desk_compare::cases::command::Case;
use desk_compare::make::faults;
use desk_compare::make::uplink::{self, Lists};
use desk_compare::meet::uplink as meet;
use desk_compare::ours::uplink::Command;
use desk_compare::ours::{bytes_of, of_bytes};
use desk_compare::random::Random;
use desk_compare::second::settings::MOST;

type Queue = queue::Queue<Case>;

pub fn families(run: &mut Run) {
    let turns = run.turns(30_000);
    run.family("command-record-allowed", "random allowed commands x rooms round their length", |random, queue| {
        for _ in 0..turns {
            let command = uplink::command(random);
            let length = uplink::text(&command).len();
            for room in rooms(length) {
                write(queue, &meet::command(&command), room)?;
            }
        }
        Ok(())
    });
    run.family("command-record-bytes", "every byte of 3 commands made every other", |random, queue| {
        for (bits, lists) in [(0xff, Lists::Full), (0xff, Lists::Few), (0, Lists::Empty)] {
            let command = uplink::command_of(random, bits, lists);
            bytes(&meet::command(&command), random, queue)?;
        }
        Ok(())
    });
    let turns = run.turns(120_000);
    run.family(
        "command-record-damaged",
        "random commands, one to four members not allowed, x rooms",
        |random, queue| {
            for _ in 0..turns {
                let mut damaged = any(random);
                for _ in 0..1 + random.below(4) {
                    faults::command(random, &mut damaged);
                }
                for room in [0, MOST, random.below(MOST + 5)] {
                    write(queue, &damaged, room)?;
                }
            }
            Ok(())
        },
    );
    let turns = run.turns(40_000);
    run.family(
        "command-record-spare",
        "random commands, spare not 0, up to two members not allowed, x rooms",
        |random, queue| {
            for _ in 0..turns {
                let mut command = any(random);
                for _ in 0..random.below(3) {
                    faults::command(random, &mut command);
                }
                command.spare = if random.percent(50) { random.byte() } else { random.of(&[1, 2, 9, b'/', 128, 255]) };
                for room in [MOST, random.below(MOST + 5)] {
                    write(queue, &command, room)?;
                }
            }
            Ok(())
        },
    );
    let turns = run.turns(20_000);
    run.family("command-record-noise", "any bytes as a command", |random, queue| {
        for _ in 0..turns {
            let mut noise = any(random);
            if random.percent(50) {
                noise.settings = faults::noise(random);
            }
            if random.percent(20) {
                noise.spare = random.byte();
            }
            if random.percent(50) {
                noise.named = std::array::from_fn(|index| random.of(&[0, index as u8 + 2]));
            }
            write(queue, &noise, random.below(900))?;
        }
        Ok(())
    });
}

/// No room, too little, just enough, and more.
fn rooms(length: usize) -> [usize; 6] {
    [0, 21, length - 1, length, length + 1, MOST + 5]
}

fn any(random: &mut Random) -> Command {
    meet::command(&uplink::command(random))
}

fn write(queue: &mut Queue, record: &Command, room: usize) -> Done {
    queue.case(Case::Record { record: Box::new(*record), room })
}

fn bytes(command: &Command, random: &mut Random, queue: &mut Queue) -> Done {
    for at in 0..size_of::<Command>() {
        for byte in 0..=255 {
            let mut changed = bytes_of(command).to_vec();
            changed[at] = byte;
            write(queue, &of_bytes(&changed), random.of(&[MOST, MOST, MOST, MOST + 5, 0, 400]))?;
        }
    }
    Ok(())
}
