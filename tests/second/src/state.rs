//! What a channel's state holds, in shape or not, and rule 3.

use crate::frame::{claimed, COMMAND_BYTES, HEADER, PAYLOAD};
use std::collections::BTreeSet;

pub const SLOTS: usize = 8;
/// The places of the work area that the frame under way has.
pub const FRAME_PLACES: usize = HEADER + PAYLOAD;
/// The most that may be pending: a longest frame but for its last byte.
pub const PENDING: u64 = FRAME_PLACES as u64 - 1;
/// A shorter work area is refused with 2.
pub const WORK: usize = FRAME_PLACES + SLOTS * COMMAND_BYTES;

#[derive(Clone, Copy, Debug, PartialEq, Eq)]
pub enum Phase {
    Free,
    Collecting,
    Waiting,
    Running,
    /// Finished before its data had all come (E8).
    Draining,
}

#[derive(Clone, Copy, Debug, PartialEq, Eq)]
pub struct Slot {
    pub id: u16,
    pub phase: Phase,
    pub data: bool,
    pub length: u64,
}

impl Slot {
    pub const FREE: Slot = Slot {
        id: 0,
        phase: Phase::Free,
        data: false,
        length: 0,
    };
}

#[derive(Clone, Debug, PartialEq, Eq)]
pub struct State {
    pub dead: u8,
    pub pending: u64,
    pub slots: [Slot; SLOTS],
    /// The open streams; their ids are odd.
    pub open: BTreeSet<u8>,
    /// How many requests are active. It is right if so many slots are used: an
    /// accepted new frame takes one, a finish of a running id and the end of a drain
    /// free one.
    pub count: u8,
}

impl State {
    pub fn fresh() -> State {
        State {
            dead: 0,
            pending: 0,
            slots: [Slot::FREE; SLOTS],
            open: BTreeSet::new(),
            count: 0,
        }
    }

    /// The slots that are not free.
    pub fn used(&self) -> impl Iterator<Item = &Slot> {
        self.slots.iter().filter(|slot| slot.phase != Phase::Free)
    }
}

/// A way in which a state is out of shape.
#[derive(Clone, Copy, Debug, PartialEq, Eq)]
pub enum Way {
    PendingAbove,
    LengthAbove,
    UsedEven,
    UsedDouble,
    FreeWithId,
    FreeWithData,
    FreeWithLength,
    WaitingWithLength,
    RunningWithLength,
    DrainingWithLength,
    WaitingWithoutData,
    DrainingWithoutData,
    DeadBelow11,
    DeadAbove29,
    CountWrong,
    HeldAbove,
    PendingPastHeld,
}

impl Way {
    pub const ALL: [Way; 17] = [
        Way::PendingAbove,
        Way::LengthAbove,
        Way::UsedEven,
        Way::UsedDouble,
        Way::FreeWithId,
        Way::FreeWithData,
        Way::FreeWithLength,
        Way::WaitingWithLength,
        Way::RunningWithLength,
        Way::DrainingWithLength,
        Way::WaitingWithoutData,
        Way::DrainingWithoutData,
        Way::DeadBelow11,
        Way::DeadAbove29,
        Way::CountWrong,
        Way::HeldAbove,
        Way::PendingPastHeld,
    ];

    pub fn name(self) -> &'static str {
        match self {
            Way::PendingAbove => "pending above 65,542",
            Way::LengthAbove => "slot length above 2,048",
            Way::UsedEven => "used id even",
            Way::UsedDouble => "used id double",
            Way::FreeWithId => "free slot with an id",
            Way::FreeWithData => "free slot with a data bit",
            Way::FreeWithLength => "free slot with a length",
            Way::WaitingWithLength => "waiting slot with a length",
            Way::RunningWithLength => "running slot with a length",
            Way::DrainingWithLength => "draining slot with a length",
            Way::WaitingWithoutData => "waiting slot without its data bit",
            Way::DrainingWithoutData => "draining slot without its data bit",
            Way::DeadBelow11 => "dead number 1 to 10",
            Way::DeadAbove29 => "dead number above 29",
            Way::CountWrong => "count wrong",
            Way::HeldAbove => "held length above 65,535",
            Way::PendingPastHeld => "pending not below 8 plus the held length",
        }
    }
}

/// The ways that the plain numbers show, without the work area. Empty if
/// there is none.
pub fn plain_ways(state: &State) -> Vec<Way> {
    let ids: BTreeSet<u16> = state.used().map(|slot| slot.id).collect();
    let used = state.used().count();
    let mut ways = broken(&[
        (state.pending > PENDING, Way::PendingAbove),
        ((1..=10).contains(&state.dead), Way::DeadBelow11),
        (state.dead > 29, Way::DeadAbove29),
        (ids.len() < used, Way::UsedDouble),
        (usize::from(state.count) != used, Way::CountWrong),
    ]);
    for slot in &state.slots {
        ways.extend(slot_ways(slot));
    }
    ways
}

fn slot_ways(slot: &Slot) -> Vec<Way> {
    let free = slot.phase == Phase::Free;
    let waiting = slot.phase == Phase::Waiting;
    let running = slot.phase == Phase::Running;
    let draining = slot.phase == Phase::Draining;
    let long = slot.length != 0;
    broken(&[
        (slot.length > COMMAND_BYTES as u64, Way::LengthAbove),
        (!free && slot.id % 2 == 0, Way::UsedEven),
        (free && slot.id != 0, Way::FreeWithId),
        (free && slot.data, Way::FreeWithData),
        (free && long, Way::FreeWithLength),
        (waiting && long, Way::WaitingWithLength),
        (waiting && !slot.data, Way::WaitingWithoutData),
        (running && long, Way::RunningWithLength),
        (draining && long, Way::DrainingWithLength),
        (draining && !slot.data, Way::DrainingWithoutData),
    ])
}

fn broken(tests: &[(bool, Way)]) -> Vec<Way> {
    let broken = tests.iter().filter(|(broken, _)| *broken);
    broken.map(|(_, way)| *way).collect()
}

/// The ways that need the header held in the work area, which is long
/// enough. With fewer than 8 bytes pending it is not there yet.
pub fn held_ways(state: &State, work: &[u8]) -> Vec<Way> {
    if state.pending < HEADER as u64 {
        return Vec::new();
    }
    let held = claimed(work);
    if held > PAYLOAD {
        vec![Way::HeldAbove]
    } else if state.pending >= (HEADER + held) as u64 {
        vec![Way::PendingPastHeld]
    } else {
        Vec::new()
    }
}

#[cfg(test)]
mod tests {
    use super::*;

    const LONGEST: u64 = COMMAND_BYTES as u64;

    /// E7's numbers.
    #[test]
    fn sizes() {
        assert_eq!((PENDING, FRAME_PLACES, WORK), (65_542, 65_543, 81_927));
        assert_eq!(crate::frame::RECORD, 65_544);
    }

    fn with(id: u16, phase: Phase, data: bool, length: u64) -> State {
        let mut state = State::fresh();
        state.slots[2] = Slot {
            id,
            phase,
            data,
            length,
        };
        state.slots[5] = Slot {
            id: 9,
            phase: Phase::Running,
            ..Slot::FREE
        };
        state.count = if phase == Phase::Free { 1 } else { 2 };
        state
    }

    #[test]
    fn slots() {
        use Phase::{Collecting, Draining, Free, Running, Waiting};
        let table: [(State, &[Way]); 24] = [
            (with(0, Free, false, 0), &[]),
            (with(1, Free, false, 0), &[Way::FreeWithId]),
            (with(9, Free, false, 0), &[Way::FreeWithId]),
            (with(0, Free, true, 0), &[Way::FreeWithData]),
            (with(0, Free, false, 1), &[Way::FreeWithLength]),
            (with(65535, Collecting, true, LONGEST), &[]),
            (with(1, Collecting, false, 0), &[]),
            (with(1, Collecting, false, LONGEST + 1), &[Way::LengthAbove]),
            (with(0, Collecting, false, 0), &[Way::UsedEven]),
            (with(256, Running, false, 0), &[Way::UsedEven]),
            (with(9, Collecting, false, 0), &[Way::UsedDouble]),
            (with(1, Waiting, true, 0), &[]),
            (with(1, Waiting, false, 0), &[Way::WaitingWithoutData]),
            (with(1, Waiting, true, 1), &[Way::WaitingWithLength]),
            (with(1, Running, true, 0), &[]),
            (with(1, Running, false, 0), &[]),
            (with(1, Running, true, 1), &[Way::RunningWithLength]),
            (with(9, Waiting, true, 0), &[Way::UsedDouble]),
            (with(1, Draining, true, 0), &[]),
            (with(1, Draining, false, 0), &[Way::DrainingWithoutData]),
            (with(1, Draining, true, 1), &[Way::DrainingWithLength]),
            (
                with(1, Draining, false, LONGEST),
                &[Way::DrainingWithLength, Way::DrainingWithoutData],
            ),
            (with(2, Draining, true, 0), &[Way::UsedEven]),
            (with(9, Draining, true, 0), &[Way::UsedDouble]),
        ];
        for (state, ways) in table {
            assert_eq!(plain_ways(&state), ways, "{state:?}");
        }
    }

    #[test]
    fn dead_numbers_and_pending() {
        for dead in 0..=255 {
            let state = State {
                dead,
                ..State::fresh()
            };
            let sound = dead == 0 || (11..=29).contains(&dead);
            assert_eq!(plain_ways(&state).is_empty(), sound, "{dead}");
        }
        for (pending, sound) in [(PENDING, true), (PENDING + 1, false), (u64::MAX, false)] {
            let state = State {
                pending,
                ..State::fresh()
            };
            assert_eq!(plain_ways(&state).is_empty(), sound, "{pending}");
        }
    }

    /// Every count beside none, one, two and eight requests.
    #[test]
    fn counts() {
        let mut full = State::fresh();
        for (slot, id) in full.slots.iter_mut().zip((1..).step_by(2)) {
            *slot = Slot {
                id,
                phase: Phase::Collecting,
                ..Slot::FREE
            };
        }
        let one = with(0, Phase::Free, false, 0);
        let two = with(1, Phase::Waiting, true, 0);
        for (mut state, right) in [(State::fresh(), 0), (one, 1), (two, 2), (full, 8)] {
            for count in 0..=255 {
                state.count = count;
                let ways: &[Way] = if count == right {
                    &[]
                } else {
                    &[Way::CountWrong]
                };
                assert_eq!(plain_ways(&state), ways, "{count}, not {right}");
            }
        }
    }

    #[test]
    fn held_lengths() {
        let table: [(u64, [u8; 3], &[Way]); 12] = [
            (7, [0xff; 3], &[]),
            (7, [0; 3], &[]),
            (8, [0; 3], &[Way::PendingPastHeld]),
            (8, [1, 0, 0], &[]),
            (9, [1, 0, 0], &[Way::PendingPastHeld]),
            (263, [0, 1, 0], &[]),
            (264, [0, 1, 0], &[Way::PendingPastHeld]),
            (8, [1, 0x10, 0], &[]),
            (PENDING, [0xff, 0xff, 0], &[]),
            (PENDING, [0xfe, 0xff, 0], &[Way::PendingPastHeld]),
            (8, [0, 0, 1], &[Way::HeldAbove]),
            (8, [0xff; 3], &[Way::HeldAbove]),
        ];
        for (pending, length, ways) in table {
            let state = State {
                pending,
                ..State::fresh()
            };
            assert_eq!(held_ways(&state, &length), ways, "{pending} {length:?}");
        }
    }
}
