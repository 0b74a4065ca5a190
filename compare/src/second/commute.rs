//! Document 02, §12: whether two commands give the same configuration in both orders.

use super::command;
use super::join::{parts, Fault};
use super::settings::NO_CHANGE;

/// What both commands set, and not to the same: nothing, where the order is of no account.
#[derive(Clone, Copy, Debug, Default, PartialEq, Eq)]
pub struct Clash {
    pub flags: [bool; 7],
    /// Sections 2 to 9.
    pub sections: [bool; 8],
}

impl Clash {
    /// The yes or no of the request.
    pub fn none(&self) -> bool {
        *self == Clash::default()
    }
}

/// "Each flag and section that both set has the same contents in both", or which have not; "refusing as a join does but
/// for room". The downlink digit sets nothing.
pub fn commute(first: &[u8], second: &[u8]) -> Result<Clash, Fault> {
    let one = parts(first).map_err(|refusal| Fault { text: 1, refusal })?;
    let other = parts(second).map_err(|refusal| Fault { text: 2, refusal })?;
    let flags = [first, second].map(command::flags);
    let flag = |index: usize| {
        let [one, other] = flags.map(|flags| flags[index]);
        one != other && one != NO_CHANGE && other != NO_CHANGE
    };
    let section = |index: usize| {
        let [one, other] = [&one, &other].map(|parts| parts.section(index + 2));
        one != other && !one.is_empty() && !other.is_empty()
    };
    Ok(Clash { flags: std::array::from_fn(flag), sections: std::array::from_fn(section) })
}
