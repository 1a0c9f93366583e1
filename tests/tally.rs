//! What must come up in a run.

use std::collections::BTreeMap;

/// How often each must come up.
const LEAST: u64 = 100;

pub struct Tally {
    names: &'static [&'static str],
    counts: BTreeMap<&'static str, u64>,
}

impl Tally {
    /// Each of these names must come up.
    pub fn of(names: &'static [&'static str]) -> Tally {
        Tally {
            names,
            counts: BTreeMap::new(),
        }
    }

    pub fn add_if(&mut self, met: bool, name: &'static str) {
        assert!(self.names.contains(&name), "a name of the table");
        if met {
            *self.counts.entry(name).or_default() += 1;
        }
    }

    /// Something that came up less often than it must.
    pub fn rare(&self) -> Option<&str> {
        let count = |name: &str| self.counts.get(name).copied().unwrap_or(0);
        let mut names = self.names.iter();
        names.find(|name| count(name) < LEAST).copied()
    }
}
