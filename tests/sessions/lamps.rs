//! What is counted of the count of active requests and of rows (E6).

use crate::coverage::Coverage;
use crate::watch::{ways, Feed};
use second::frame::RECORD;
use second::receiver::Receiver;
use second::state::{Phase, Way, SLOTS, WORK};

/// In a state that is in shape otherwise. One too low of 0 is 255.
pub const WRONG_COUNTS: [&str; 4] = [
    "count one too high, 3 answered to a feed",
    "count one too low, 3 answered to a feed",
    "count one too high, 3 answered to a finish",
    "count one too low, 3 answered to a finish",
];

const MET: [&str; 20] = [
    "count of 255 without a request",
    "count wrong by more than one",
    "count alone refuses a feed that would take bytes",
    "count alone refuses the finish of a running id",
    "count told",
    "count told of a dead channel",
    "count told with a held length out of shape",
    "count told with too short a work area",
    "count not told, 3",
    "row filled",
    "row filled of a dead channel",
    "row filled with a held length out of shape",
    "row filled with too short a work area",
    "row of nine entries filled",
    "row of ten entries or more filled",
    "row of seven entries, 9",
    "row of no entries, 9",
    "row of a dead channel, 9",
    "row of eight entries or more, 3",
    "row of less than eight entries, 3",
];

const PHASES: [(Phase, &str); 5] = [
    (Phase::Free, "free"),
    (Phase::Collecting, "collecting"),
    (Phase::Waiting, "waiting"),
    (Phase::Running, "running"),
    (Phase::Draining, "draining"),
];

fn entry_name(place: usize, phase: Phase) -> String {
    let named = PHASES.into_iter().find(|(named, _)| *named == phase);
    let (_, name) = named.expect("each phase has a name");
    format!("entry {place} of a row: {name}")
}

fn count_name(count: usize) -> String {
    format!("count of {count} told")
}

pub fn names() -> impl Iterator<Item = String> {
    let met = WRONG_COUNTS.into_iter().chain(MET).map(String::from);
    let entries = (0..SLOTS).flat_map(|place| PHASES.map(|(phase, _)| entry_name(place, phase)));
    met.chain(entries).chain((0..=SLOTS).map(count_name))
}

impl Coverage {
    /// A feed answered 3.
    pub fn feed_refused(&mut self, receiver: &Receiver, feed: &Feed) {
        if self.wrong_count(receiver, "feed") && receiver.state().dead == 0 {
            let takes = !feed.input.is_empty() && feed.output >= RECORD;
            self.add_if(takes, "count alone refuses a feed that would take bytes");
        }
    }

    /// A finish of an id answered 3.
    pub fn finish_refused(&mut self, receiver: &Receiver, id: u16) {
        if self.wrong_count(receiver, "finish") && receiver.state().dead == 0 {
            let state = receiver.state();
            let held = state.used().find(|slot| slot.id == id);
            let runs = held.is_some_and(|slot| slot.phase == Phase::Running);
            self.add_if(runs, "count alone refuses the finish of a running id");
        }
    }

    /// Whether the count alone is the reason for 3.
    fn wrong_count(&mut self, receiver: &Receiver, call: &str) -> bool {
        let state = receiver.state();
        if ways(receiver) != (vec![Way::CountWrong], vec![]) {
            return false;
        }
        let used = state.used().count() as u8;
        let none = used == 0 && state.count == 255;
        self.add_if(none, "count of 255 without a request");
        match state.count.wrapping_sub(used) {
            1 => self.add(&format!("count one too high, 3 answered to a {call}")),
            255 => self.add(&format!("count one too low, 3 answered to a {call}")),
            _ => self.add("count wrong by more than one"),
        }
        true
    }

    pub fn active(&mut self, receiver: &Receiver, number: u8, count: usize) {
        if number == 3 {
            return self.add("count not told, 3");
        }
        self.add(&count_name(count));
        self.beside(receiver, "count told");
    }

    pub fn row(&mut self, receiver: &Receiver, number: u8, entries: usize) {
        let short = entries < SLOTS;
        match number {
            0 => self.filled(receiver, entries),
            3 if short => self.add("row of less than eight entries, 3"),
            3 => self.add("row of eight entries or more, 3"),
            _ => {
                self.number(9);
                self.add_if(entries == SLOTS - 1, "row of seven entries, 9");
                self.add_if(entries == 0, "row of no entries, 9");
                let dead = receiver.state().dead != 0;
                self.add_if(dead, "row of a dead channel, 9");
            }
        }
    }

    fn filled(&mut self, receiver: &Receiver, entries: usize) {
        self.beside(receiver, "row filled");
        self.add_if(entries == SLOTS + 1, "row of nine entries filled");
        self.add_if(entries > SLOTS + 1, "row of ten entries or more filled");
        for (place, slot) in receiver.state().slots.iter().enumerate() {
            self.add(&entry_name(place, slot.phase));
        }
    }

    /// What else would refuse a feed, and does not refuse this.
    fn beside(&mut self, receiver: &Receiver, what: &str) {
        self.add(what);
        let dead = receiver.state().dead != 0;
        self.add_if(dead, &format!("{what} of a dead channel"));
        let held = !ways(receiver).1.is_empty();
        self.add_if(held, &format!("{what} with a held length out of shape"));
        let little = receiver.work().len() < WORK;
        self.add_if(little, &format!("{what} with too short a work area"));
    }
}
