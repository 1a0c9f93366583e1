//! What the calls of a session have come to: the new frames accepted, the finishes of
//! running ids, and the drains ended.

use crate::tally::Tally;
use second::state::{Phase, Slot};
use std::collections::BTreeSet;
use std::mem::take;

const MET: [&str; 20] = [
    "a new frame accepted",
    "several new frames accepted in one feed",
    "a continuation accepted",
    "data accepted",
    "the last data accepted",
    "the last data of a drain accepted",
    "another frame accepted",
    "a new frame refused",
    "another frame refused",
    "a feed refused with 1 to 3",
    "a feed stopped with 5",
    "a feed on a dead channel",
    "a finish of a running id accepted",
    "a finish of a waiting id accepted",
    "a finish refused with 3",
    "a finish refused with 4",
    "a finish on a dead channel",
    "a start with requests",
    "a start with a drain",
    "eight requests",
];

pub struct History {
    /// What was taken of the frame under way.
    under_way: Vec<u8>,
    /// The ids whose data is still to come, and those of them that were finished.
    awaited: BTreeSet<u16>,
    draining: BTreeSet<u16>,
    /// The count at the start.
    start: i64,
    news: i64,
    finishes: i64,
    drains: i64,
    pub tally: Tally,
}

impl History {
    pub fn new() -> History {
        History {
            under_way: Vec::new(),
            awaited: BTreeSet::new(),
            draining: BTreeSet::new(),
            start: 0,
            news: 0,
            finishes: 0,
            drains: 0,
            tally: Tally::of(&MET),
        }
    }

    /// A state with this count and these slots, in shape or not, and the bytes pending.
    pub fn start(&mut self, count: i64, slots: &[Slot], pending: &[u8]) {
        let in_phase = |phases: &[Phase]| {
            let held = slots.iter().filter(|slot| phases.contains(&slot.phase));
            held.map(|slot| slot.id).collect()
        };
        self.awaited = in_phase(&[Phase::Waiting, Phase::Draining]);
        self.draining = in_phase(&[Phase::Draining]);
        self.start = count;
        (self.news, self.finishes, self.drains) = (0, 0, 0);
        self.under_way = pending.to_vec();
        self.tally.add_if(count > 0, "a start with requests");
        let drains = !self.draining.is_empty();
        self.tally.add_if(drains, "a start with a drain");
    }

    /// Other bytes are pending.
    pub fn poked(&mut self, pending: &[u8]) {
        self.under_way = pending.to_vec();
    }

    pub fn count(&self) -> i64 {
        self.start + self.news - self.finishes - self.drains
    }

    /// The bytes that a feed took, and its number. A refused frame ends with the last
    /// of them.
    pub fn fed(&mut self, taken: &[u8], number: i64) {
        let before = self.news;
        for (place, byte) in (1..).zip(taken) {
            self.under_way.push(*byte);
            let refused = number >= 11 && place == taken.len();
            if refused || is_whole(&self.under_way) {
                let frame = take(&mut self.under_way);
                self.frame(&frame, refused);
            }
        }
        let (several, full) = (self.news > before + 1, self.count() == 8);
        let tally = &mut self.tally;
        tally.add_if(several, "several new frames accepted in one feed");
        let refused = matches!(number, 1..=3);
        tally.add_if(refused, "a feed refused with 1 to 3");
        tally.add_if(number == 5, "a feed stopped with 5");
        let dead = number >= 11 && taken.is_empty();
        tally.add_if(dead, "a feed on a dead channel");
        tally.add_if(full, "eight requests");
    }

    fn frame(&mut self, frame: &[u8], refused: bool) {
        let new = frame[7] >> 4 == 1 && frame[7] & 1 != 0;
        self.news += i64::from(new && !refused);
        let name = match (new, refused) {
            (true, true) => "a new frame refused",
            (false, true) => "another frame refused",
            (_, false) => self.accepted(frame, new),
        };
        self.tally.add_if(true, name);
    }

    /// Whether data is to come, and whether all of it has come.
    fn accepted(&mut self, frame: &[u8], new: bool) -> &'static str {
        let id = u16::from_le_bytes([frame[3], frame[4]]);
        match (frame[7] >> 4, frame[7] & 15) {
            (1, flags) => {
                let whole = flags & 4 == 0;
                if whole && flags & 8 != 0 {
                    self.awaited.insert(id);
                }
                if new {
                    "a new frame accepted"
                } else {
                    "a continuation accepted"
                }
            }
            (2, 2) => {
                self.awaited.remove(&id);
                let drained = self.draining.remove(&id);
                self.drains += i64::from(drained);
                if drained {
                    "the last data of a drain accepted"
                } else {
                    "the last data accepted"
                }
            }
            (2, _) => "data accepted",
            _ => "another frame accepted",
        }
    }

    /// The number that a finish of an id answered. An id whose data is still to come
    /// drains.
    pub fn finished(&mut self, id: u16, number: i64) {
        let early = self.awaited.contains(&id);
        if number == 0 && early {
            self.draining.insert(id);
        }
        self.finishes += i64::from(number == 0 && !early);
        let name = match number {
            0 if early => "a finish of a waiting id accepted",
            0 => "a finish of a running id accepted",
            3 => "a finish refused with 3",
            4 => "a finish refused with 4",
            _ => "a finish on a dead channel",
        };
        self.tally.add_if(true, name);
    }
}

/// Whether this is a header and as much payload as it claims.
fn is_whole(bytes: &[u8]) -> bool {
    let [a, b, c, _, _, _, _, _, payload @ ..] = bytes else {
        return false;
    };
    payload.len() == u32::from_le_bytes([*a, *b, *c, 0]) as usize
}
