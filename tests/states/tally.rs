//! How often each call gave each number, a row of each length, and a draining slot out
//! of shape 3.

use generate::{row_length, ROW_LENGTHS};
use second::state::{plain_ways, Phase, Slot, State, Way};
use std::collections::BTreeMap;

/// How often each must come up.
const LEAST: u64 = 10;
const LEAST_DRAINS: u64 = 20;

type Of = fn(&State, &Slot) -> bool;

/// How a draining slot can be out of shape: the way, and which slot has it.
const DRAINS: [(&str, Way, Of); 4] = [
    (
        "without its data bit",
        Way::DrainingWithoutData,
        |_, slot| !slot.data,
    ),
    ("with a length", Way::DrainingWithLength, |_, slot| {
        slot.length != 0
    }),
    ("with an even id", Way::UsedEven, |_, slot| slot.id % 2 == 0),
    ("with the id of another", Way::UsedDouble, |state, slot| {
        state.used().filter(|other| other.id == slot.id).count() > 1
    }),
];

type Counts<K> = BTreeMap<(K, u32), u64>;

#[derive(Default)]
pub struct Tally {
    calls: Counts<&'static str>,
    /// Of rows by their length, and of rows of dead channels.
    rows: Counts<usize>,
    dead_rows: Counts<()>,
    /// Of feeds on a draining slot out of shape.
    drains: Counts<&'static str>,
}

fn join<K: Ord>(counts: &mut Counts<K>, other: Counts<K>) {
    for (key, count) in other {
        *counts.entry(key).or_default() += count;
    }
}

impl Tally {
    pub fn add(&mut self, call: &'static str, number: u32) {
        *self.calls.entry((call, number)).or_default() += 1;
    }

    pub fn add_row(&mut self, length: usize, dead: bool, number: u32) {
        self.add("row", number);
        *self.rows.entry((length, number)).or_default() += 1;
        *self.dead_rows.entry(((), number)).or_default() += u64::from(dead);
    }

    /// A feed on bytes that are this state, or none. A draining slot out of shape is
    /// counted where that alone is the reason for 3.
    pub fn add_feed(&mut self, number: u32, state: Option<&State>) {
        self.add("feed", number);
        let Some(state) = state.filter(|_| number == 3) else {
            return;
        };
        let ways = plain_ways(state);
        for (name, way, of) in DRAINS {
            let mut drains = state.used().filter(|slot| slot.phase == Phase::Draining);
            if ways == [way] && drains.any(|slot| of(state, slot)) {
                *self.drains.entry((name, number)).or_default() += 1;
            }
        }
    }

    pub fn joined(mut self, other: Tally) -> Tally {
        join(&mut self.calls, other.calls);
        join(&mut self.rows, other.rows);
        join(&mut self.dead_rows, other.dead_rows);
        join(&mut self.drains, other.drains);
        self
    }

    pub fn calls(&self) -> u64 {
        self.calls.values().sum()
    }

    pub fn print(&self) {
        for call in ["feed", "finish", "active", "row"] {
            let counts = self.calls.iter().filter(|((of, _), _)| *of == call);
            let words: Vec<String> = counts
                .map(|((_, n), count)| format!("{n}: {count}"))
                .collect();
            println!("{call:<8}{}", words.join("  "));
        }
        self.print_drains();
    }

    fn print_drains(&self) {
        for ((name, number), count) in &self.drains {
            println!("{count:>8}  draining slot {name}, {number}");
        }
    }

    /// The numbers that any bytes must bring up; a row of each length with 3, and with
    /// what it is answered else.
    pub fn check(&self) -> Result<(), String> {
        let feed = [0, 1, 2, 3, 5].into_iter().chain(11..=29);
        let finish = [0, 3, 4].into_iter().chain(11..=29);
        let calls = feed
            .map(|n| ("feed", n))
            .chain(finish.map(|n| ("finish", n)))
            .chain([("active", 0), ("active", 3)]);
        for (call, number) in calls {
            often(&self.calls, (call, number), LEAST)
                .map_err(|times| format!("{call} answered {number} only {times} times"))?;
        }
        self.check_drains()?;
        self.check_rows()
    }

    fn check_drains(&self) -> Result<(), String> {
        for (name, ..) in DRAINS {
            often(&self.drains, (name, 3), LEAST_DRAINS).map_err(|times| {
                format!("a draining slot {name} was answered 3 only {times} times")
            })?;
        }
        Ok(())
    }

    fn check_rows(&self) -> Result<(), String> {
        for number in [0, 3, 9] {
            often(&self.dead_rows, ((), number), LEAST).map_err(|times| {
                format!("a dead channel's row was answered {number} only {times} times")
            })?;
        }
        for length in (0..ROW_LENGTHS).map(row_length) {
            for number in [3, if length < hgrpc::ROW { 9 } else { 0 }] {
                often(&self.rows, (length, number), LEAST).map_err(|times| {
                    format!("a row of {length} was answered {number} only {times} times")
                })?;
            }
        }
        Ok(())
    }
}

/// An error tells how often it was.
fn often<K: Ord>(counts: &Counts<K>, key: (K, u32), least: u64) -> Result<(), u64> {
    match counts.get(&key).copied().unwrap_or(0) {
        times if times >= least => Ok(()),
        times => Err(times),
    }
}
