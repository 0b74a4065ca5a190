//! The onboard configuration that a command changes.

use super::settings::*;
use super::{allowed, command, refuse, Refusal, SETTINGS};

/// "After reset: flags 1 0 0 0 1 1 1; counts 00; routine 0 in section 3, 1 in 6 and 8; 4 is 07, 1; 5 is 1, 06, 090, 20,
/// 051, 200, 2, 1; 9 is 00, 00." Section 7's defaults are those of source document 003: 1, 040, 200, 2, 1.
pub fn reset() -> Configuration {
    Configuration {
        flags: [1, 0, 0, 0, 1, 1, 1],
        sections: Sections {
            boxes: [Boxes::default(); 2],
            airfields: [Airfields::default(); 4],
            airports: [0],
            enroute: [7, 1],
            ascent: [1, 6, 90, 20, 51, 200, 2, 1],
            routine6: [1],
            descent: [1, 40, 200, 2, 1],
            routine8: [1],
            hours: [0, 0],
        },
    }
}

/// "Valid when its flags are 0 or 1 and each of its sections, as a section of a command, would pass the writer's checks."
/// One that is not is 12.
pub fn valid(configuration: &Configuration) -> Result<(), Refusal> {
    let flags = configuration.flags.iter().all(|flag| *flag <= 1);
    if flags && (2..=9).all(|number| allowed::section(number, &configuration.sections, 0).is_ok()) {
        Ok(())
    } else {
        refuse(SETTINGS, 0)
    }
}

/// Applies a command's text in place, and gives its downlink digit.
pub fn apply(configuration: &mut Configuration, text: &[u8]) -> Result<u8, Refusal> {
    valid(configuration)?;
    let mut changed = configuration.sections;
    command::walk(text, &mut changed)?;
    configuration.sections = changed;
    for (held, flag) in configuration.flags.iter_mut().zip(command::flags(text)) {
        if flag != NO_CHANGE {
            *held = flag;
        }
    }
    Ok(command::downlink(text))
}
