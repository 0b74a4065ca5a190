//! What can be said of the time at which a step ran that left no number.
//!
//! A client does one thing after the other. So what it did ran after its own step before was committed, and before its own step
//! behind it was counted; and a step was committed before its client's next one was counted.

use std::collections::HashMap;

/// A client and the number of its step.
pub type Key = (u32, u64);

pub struct Order<'a> {
    /// Each client's committed steps: its own number of the step, and the database's.
    of_client: HashMap<u32, Vec<(u64, u64)>>,
    /// The database's number of the step that its client did next.
    next: HashMap<u64, u64>,
    /// Each aircraft's steps in order, and whether it was a taking.
    of_aircraft: HashMap<&'a str, Vec<(u64, bool)>>,
}

impl<'a> Order<'a> {
    pub fn of_clients(committed: &HashMap<Key, u64>) -> Order<'a> {
        let mut of_client: HashMap<u32, Vec<(u64, u64)>> = HashMap::new();
        for (key, at) in committed {
            of_client.entry(key.0).or_default().push((key.1, *at));
        }
        of_client.values_mut().for_each(|steps| steps.sort_unstable());
        let pairs = of_client.values().flat_map(|steps| steps.windows(2));
        let next = pairs.map(|two| (two[0].1, two[1].1)).collect();
        Order { of_client, next, of_aircraft: HashMap::new() }
    }

    /// The next step of all, by the database's numbers.
    pub fn step(&mut self, at: u64, designator: &'a str, is_taking: bool) {
        self.of_aircraft.entry(designator).or_default().push((at, is_taking));
    }

    /// The database's numbers of a client's steps before and behind one that has none.
    fn between(&self, key: Key) -> (u64, u64) {
        let own = self.of_client.get(&key.0).map_or(&[][..], Vec::as_slice);
        let behind = own.partition_point(|(step, _)| *step < key.1);
        (own[..behind].last().map_or(0, |step| step.1), own.get(behind).map_or(u64::MAX, |step| step.1))
    }

    /// Whether there was a moment, while a step ran that has no number, at which nothing can have waited for an aircraft: before
    /// all of its steps, or behind a taking. Those steps were committed by then whose clients had gone on; those of a higher
    /// number than the client's next came later.
    pub fn may_find_nothing(&self, key: Key, designator: &str) -> bool {
        let (before, after) = self.between(key);
        let steps = self.of_aircraft.get(designator).map_or(&[][..], Vec::as_slice);
        let most = steps.partition_point(|(at, _)| *at < after);
        let is_committed =
            |(at, _): &(u64, bool)| *at == before || self.next.get(at).is_some_and(|next| *next <= before);
        let least = steps[..most].iter().rposition(is_committed).map_or(0, |at| at + 1);
        (least..=most).any(|count| count == 0 || steps[count - 1].1)
    }
}
