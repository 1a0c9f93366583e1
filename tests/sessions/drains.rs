//! What is counted of requests that are finished before their data has all come (E8).

use crate::counts::phase_of;
use crate::coverage::Coverage;
use crate::watch::Before;
use second::frame::{claimed, Frame, DATA, HEADER, LAST_DATA, NEW, SETTINGS};
use second::receiver::{Event, Receiver, Uncut};
use second::state::{Phase, State, Way};
use std::collections::BTreeSet;

pub const MET: [&str; 23] = [
    "finish of a waiting id, 0",
    "finish of a waiting id before any data, 0",
    "finish of a waiting id between its data frames, 0",
    "finish of a waiting id with its data frame under way, 0",
    "finish of a draining id, 4",
    "start with a draining slot",
    "start with a draining id's data frame under way",
    "drained frame, not the last",
    "drain ended by a frame with payload",
    "drain ended by a frame of length 0",
    "drained frame that begins a stream",
    "drained frame that ends a stream",
    "drained frame of more than 4,096 bytes",
    "5 before a drained frame",
    "id used again after its drain",
    "new command in the slot that a drain freed",
    "new command in the one slot of eight that a drain freed",
    "19 for a draining id",
    "20 with a draining slot",
    "21 for a draining id",
    "27 for an id whose drain has ended",
    "draining slot with an even id, 3",
    "draining slot with an id of another, 3",
];

/// What the counts must remember of drains.
#[derive(Default)]
pub struct Drains {
    /// The ids whose drains have ended, and which were not used again.
    ended: BTreeSet<u16>,
    /// The slot that the last drain freed, if no new command came since.
    freed: Option<usize>,
}

/// The request whose data frame is under way, as far as its header has come.
fn data_under_way(receiver: &Receiver, pending: u64) -> Option<u16> {
    let header = receiver.work().get(..HEADER)?;
    let frame = Frame::read(header.to_vec());
    let is_data = pending >= HEADER as u64 && frame.kind() == DATA;
    is_data.then(|| frame.request())
}

/// The type of the last command or data frame of a request.
fn last_kind(history: &[Event], id: u16) -> Option<u8> {
    let mut latest_first = history.iter().rev();
    latest_first.find_map(|event| match event {
        Event::Frame(frame) if frame.request() == id => {
            Some(frame.kind()).filter(|kind| *kind != SETTINGS)
        }
        _ => None,
    })
}

fn drains(state: &State) -> bool {
    state.slots.iter().any(|slot| slot.phase == Phase::Draining)
}

impl Coverage {
    /// A start that is in shape.
    pub fn draining_start(&mut self, receiver: &Receiver, state: &State) {
        self.add_if(drains(state), "start with a draining slot");
        let id = data_under_way(receiver, state.pending);
        let drained = id.is_some_and(|id| phase_of(state, id) == Phase::Draining);
        self.add_if(drained, "start with a draining id's data frame under way");
    }

    /// A feed answered 3. Counted only where one way alone is the reason.
    pub fn draining_shape(&mut self, state: &State, plain: &[Way], held: &[Way]) {
        let mut draining = state.used().filter(|slot| slot.phase == Phase::Draining);
        let twice = |id: u16| state.used().filter(|slot| slot.id == id).count() > 1;
        match (plain, held) {
            ([Way::UsedEven], []) => {
                let even = draining.any(|slot| slot.id % 2 == 0);
                self.add_if(even, "draining slot with an even id, 3");
            }
            ([Way::UsedDouble], []) => {
                let double = draining.any(|slot| twice(slot.id));
                self.add_if(double, "draining slot with an id of another, 3");
            }
            _ => {}
        }
    }

    /// A feed that stopped with 5 before the last byte of a frame of this type.
    pub fn stopped_drain(&mut self, receiver: &Receiver, kind: u8) {
        let id = u16::from_le_bytes([receiver.work()[3], receiver.work()[4]]);
        let drained = kind == DATA && phase_of(&receiver.state(), id) == Phase::Draining;
        self.add_if(drained, "5 before a drained frame");
    }

    /// A finish that was answered 0.
    pub fn finished_early(&mut self, receiver: &Receiver, before: &Before, id: u16) {
        if phase_of(&before.state, id) != Phase::Waiting {
            return;
        }
        self.add("finish of a waiting id, 0");
        if before.state.pending == 0 {
            self.add(match last_kind(receiver.history(), id) {
                Some(DATA) => "finish of a waiting id between its data frames, 0",
                _ => "finish of a waiting id before any data, 0",
            });
        }
        let own = data_under_way(receiver, before.state.pending) == Some(id);
        let name = "finish of a waiting id with its data frame under way, 0";
        self.add_if(own, name);
    }

    /// A frame that was judged: the state before it, and the plain receiver after it.
    pub fn judged(&mut self, before: &State, uncut: &Uncut) {
        let length = HEADER + claimed(&uncut.work);
        let frame = Frame::read(uncut.work[..length].to_vec());
        if uncut.state.dead != 0 {
            self.refused_by_drain(before, &frame, uncut.state.dead);
        } else if frame.kind() == DATA && phase_of(before, frame.request()) == Phase::Draining {
            self.drained(before, &frame);
        } else if frame.is_command(NEW) {
            self.begun(before, &frame, &uncut.state);
        }
    }

    fn refused_by_drain(&mut self, before: &State, frame: &Frame, number: u8) {
        let id = frame.request();
        let draining = phase_of(before, id) == Phase::Draining;
        match number {
            19 => self.add_if(draining, "19 for a draining id"),
            20 => self.add_if(drains(before), "20 with a draining slot"),
            21 => self.add_if(draining, "21 for a draining id"),
            27 => {
                let ended = self.drains.ended.contains(&id);
                self.add_if(ended, "27 for an id whose drain has ended");
            }
            _ => {}
        }
    }

    fn drained(&mut self, before: &State, frame: &Frame) {
        let length = frame.payload().len();
        if frame.flags() == LAST_DATA {
            self.add(match length {
                0 => "drain ended by a frame of length 0",
                _ => "drain ended by a frame with payload",
            });
            let id = frame.request();
            self.drains.ended.insert(id);
            self.drains.freed = before.slots.iter().position(|slot| slot.id == id);
        } else {
            self.add("drained frame, not the last");
        }
        self.add_if(frame.begins(), "drained frame that begins a stream");
        self.add_if(frame.ends(), "drained frame that ends a stream");
        self.add_if(length > 4096, "drained frame of more than 4,096 bytes");
    }

    fn begun(&mut self, before: &State, frame: &Frame, after: &State) {
        let id = frame.request();
        let again = self.drains.ended.remove(&id);
        self.add_if(again, "id used again after its drain");
        let slot = after.slots.iter().position(|slot| slot.id == id);
        let freed = self.drains.freed.take();
        let same = freed.is_some() && freed == slot;
        self.add_if(same, "new command in the slot that a drain freed");
        let only = same && before.used().count() == after.slots.len() - 1;
        let name = "new command in the one slot of eight that a drain freed";
        self.add_if(only, name);
    }
}
