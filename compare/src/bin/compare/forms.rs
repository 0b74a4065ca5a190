//! Families of records with members of another form than their one, alone and beside faults that a field's own check
//! finds: to the left, to the right, and at the same place.

use crate::records::{damage, write, ROOMS};
use crate::run::Run;
use desk_compare::make;
use desk_compare::make::forms::{checked, formed, observation, other, wrong};
use desk_compare::meet;
use desk_compare::ours::{bytes_of, of_bytes, Report};
use desk_compare::random::Random;

pub fn families(run: &mut Run) {
    run.family("form-bytes", "every byte of 3 records made every other", |random, queue| {
        for (present, missing) in [(7, 0), (3, 50), (0, 100)] {
            let record = meet::record(&make::record_of(random, present, missing));
            for at in 0..size_of::<Report>() {
                for byte in 0..=255 {
                    let mut changed = bytes_of(&record).to_vec();
                    changed[at] = byte;
                    write(queue, &of_bytes(&changed), random.of(&[220, 220, 220, 230, 219, 0]))?;
                }
            }
        }
        Ok(())
    });
    run.family("form-words", "every value of spare, and of present in 3 observations", |random, queue| {
        let record = meet::record(&make::record_of(random, 4, 30));
        for value in 0..=u16::MAX {
            let mut changed = record;
            changed.spare = value.to_le_bytes();
            write(queue, &changed, 220)?;
            for index in [0, 4, 5] {
                let mut changed = record;
                observation(&mut changed, index).present = value;
                write(queue, &changed, 220)?;
            }
        }
        Ok(())
    });
    let (formed, checked) = (formed(), checked());
    let checked_where = |holds: &dyn Fn(&usize) -> bool| checked.iter().copied().filter(holds).collect::<Vec<_>>();
    family(run, "form-one", "one member of another form", |random, record| other(random, record, &formed));
    family(run, "form-several", "two to six members of another form", |random, record| {
        for _ in 0..2 + random.below(5) {
            other(random, record, &formed);
        }
    });
    family(run, "form-left", "one of another form, and an own fault to the left", |random, record| {
        let form = random.of(&formed);
        wrong(random, record, &checked_where(&|field| *field < form));
        other(random, record, &[form]);
    });
    family(run, "form-right", "one of another form, and an own fault to the right", |random, record| {
        let form = random.of(&formed);
        wrong(random, record, &checked_where(&|field| *field > form));
        other(random, record, &[form]);
    });
    family(run, "form-same", "one of another form, and an own fault at its place", |random, record| {
        let form = random.of(&formed);
        wrong(random, record, &[form]);
        other(random, record, &[form]);
    });
    family(run, "form-mixed", "up to three of another form, up to four own faults", |random, record| {
        for _ in 0..random.below(4) {
            other(random, record, &formed);
        }
        for _ in 0..random.below(3) {
            damage(random, record);
        }
        for _ in 0..random.below(3) {
            wrong(random, record, &checked);
        }
    });
}

/// Random allowed records, each changed and written into two rooms. Three in four have all observations.
fn family(run: &mut Run, name: &str, says: &str, change: impl Fn(&mut Random, &mut Report)) {
    let turns = run.turns(40_000);
    run.family(name, &format!("random records, {says}"), |random, queue| {
        for _ in 0..turns {
            let present = if random.percent(75) { 7 } else { random.below(7) };
            let missing = random.of(&[0, 10, 30, 60, 100]);
            let mut record = meet::record(&make::record_of(random, present, missing));
            change(random, &mut record);
            write(queue, &record, 220)?;
            write(queue, &record, random.of(&ROOMS))?;
        }
        Ok(())
    });
}
