//! Names, and how often each came up.

use std::collections::BTreeMap;

pub struct Counts {
    /// In the order of printing.
    counts: Vec<(String, u64)>,
    places: BTreeMap<String, usize>,
}

impl Counts {
    pub fn of(names: Vec<String>) -> Counts {
        Counts {
            counts: names.iter().map(|name| (name.clone(), 0)).collect(),
            places: names.into_iter().zip(0..).collect(),
        }
    }

    pub fn add(&mut self, name: &str) {
        let place = self.places.get(name);
        self.counts[*place.expect("a name of the table")].1 += 1;
    }

    pub fn print(&self) {
        for (name, count) in &self.counts {
            println!("{count:>8}  {name}");
        }
    }

    /// The first name that came up less often than `least` has it, which knows the
    /// name's place among all of them.
    pub fn rare(&self, least: impl Fn(usize) -> u64) -> Option<&str> {
        let mut counts = self.counts.iter().enumerate();
        let rare = counts.find(|(place, (_, count))| *count < least(*place));
        rare.map(|(_, (name, _))| &name[..])
    }
}
