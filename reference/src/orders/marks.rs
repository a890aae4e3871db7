//! How often each statement was looked at, and where it did not hold.

use std::collections::BTreeMap;

/// The first place where a statement does not hold, and how many such places there are.
#[derive(Clone, PartialEq, Eq, Debug)]
pub struct Failure {
    pub times: u64,
    pub row: u32,
    pub what: String,
}

/// What was looked at in the rows of one run.
#[derive(Default)]
pub struct Marks {
    /// The row that is looked at, from 1.
    pub row: u32,
    pub looked: BTreeMap<&'static str, u64>,
    pub faults: BTreeMap<&'static str, Failure>,
    pub counts: BTreeMap<String, u64>,
}

/// Returns whether a statement is claimed. One that begins with `perhaps` is only measured.
pub fn is_claimed(name: &str) -> bool {
    !name.starts_with("perhaps ")
}

impl Marks {
    /// Looks at a statement, and notes the first row where it does not hold.
    pub fn look(&mut self, name: &'static str, holds: bool, what: impl FnOnce() -> String) {
        *self.looked.entry(name).or_default() += 1;
        if holds {
            return;
        }
        let row = self.row;
        let fault = self.faults.entry(name).or_insert_with(|| Failure { times: 0, row, what: what() });
        fault.times += 1;
    }

    /// Counts so many more of something that is no statement.
    pub fn count(&mut self, what: &str, n: u64) {
        match self.counts.get_mut(what) {
            Some(count) => *count += n,
            None => {
                self.counts.insert(what.to_string(), n);
            }
        }
    }

    /// Returns the names of the claimed statements that do not hold.
    pub fn broken(&self) -> Vec<&'static str> {
        self.faults.keys().copied().filter(|name| is_claimed(name)).collect()
    }
}
