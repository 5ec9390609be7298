//! How often each outcome was seen.

use crate::runner::Finding;
use std::collections::BTreeMap;
use std::fmt::Debug;

/// Each outcome must be reached so many times.
const OFTEN: usize = 20;

pub struct Tally<T>(BTreeMap<T, usize>);

impl<T: Ord + Debug> Tally<T> {
    pub fn new() -> Tally<T> {
        Tally(BTreeMap::new())
    }

    pub fn see(&mut self, outcome: T) {
        *self.0.entry(outcome).or_default() += 1;
    }

    /// Exactly the expected outcomes were seen, each often enough.
    pub fn judge(self, mut expected: Vec<T>) -> Finding {
        expected.sort();
        let seen: Vec<&T> = self.0.keys().collect();
        let shown = format!("{:?}", self.0);
        let full = seen == expected.iter().collect::<Vec<_>>() && self.0.values().all(|&times| times >= OFTEN);
        if full {
            Ok(shown)
        } else {
            Err(format!("seen {shown}, expected each of {expected:?} {OFTEN} times or more"))
        }
    }
}
