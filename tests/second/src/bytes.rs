//! A state as bytes, as the archive keeps it for its caller: the dead number,
//! the pending count, the slots (id, phase, data bit, length), a byte for each
//! stream, and the count of active requests. Numbers have their low byte first.

use crate::state::{Phase, Slot, State, SLOTS};

/// The bytes of the pending count and of a slot's length.
const PENDING: usize = 3;
const LENGTH: usize = 2;

const SLOT: usize = 2 + 1 + 1 + LENGTH;
const STREAMS: usize = 128;
/// Where the streams and the count stand.
pub const STREAMS_AT: usize = 1 + PENDING + SLOTS * SLOT;
pub const COUNT_AT: usize = STREAMS_AT + STREAMS;
pub const STATE: usize = COUNT_AT + 1;

/// The largest pending count and the largest slot length that the bytes hold.
pub const MOST_PENDING: u64 = most(PENDING);
pub const MOST_LENGTH: u64 = most(LENGTH);

const fn most(bytes: usize) -> u64 {
    u64::MAX >> (64 - 8 * bytes)
}

/// The bytes of a state whose numbers fit, in shape or not.
pub fn write(state: &State) -> Vec<u8> {
    let mut bytes = vec![state.dead];
    put(&mut bytes, state.pending, PENDING);
    for slot in &state.slots {
        put(&mut bytes, slot.id.into(), 2);
        bytes.push(slot.phase as u8);
        bytes.push(slot.data.into());
        put(&mut bytes, slot.length, LENGTH);
    }
    let open = |index: usize| state.open.contains(&(2 * index as u8 + 1));
    bytes.extend((0..STREAMS).map(|index| u8::from(open(index))));
    bytes.push(state.count);
    bytes
}

fn put(bytes: &mut Vec<u8>, number: u64, count: usize) {
    assert!(number <= most(count), "{number} fits {count} bytes");
    bytes.extend(&number.to_le_bytes()[..count]);
}

/// The state of these bytes, in shape or not. None if they are no state.
pub fn read(bytes: &[u8]) -> Option<State> {
    if bytes.len() != STATE {
        return None;
    }
    let (plain, rest) = bytes.split_at(1 + PENDING);
    let (slots, rest) = rest.split_at(SLOTS * SLOT);
    let (streams, count) = rest.split_at(STREAMS);
    let slots: Option<Vec<Slot>> = slots.chunks(SLOT).map(slot).collect();
    let open: Option<Vec<bool>> = streams.iter().map(flag).collect();
    let ids = (0..).zip(open?).filter(|(_, open)| *open);
    Some(State {
        dead: plain[0],
        pending: little(&plain[1..]),
        slots: slots?.try_into().ok()?,
        open: ids.map(|(index, _)| 2 * index + 1).collect(),
        count: count[0],
    })
}

fn slot(bytes: &[u8]) -> Option<Slot> {
    Some(Slot {
        id: little(&bytes[..2]) as u16,
        phase: match bytes[2] {
            0 => Phase::Free,
            1 => Phase::Collecting,
            2 => Phase::Waiting,
            3 => Phase::Running,
            4 => Phase::Draining,
            _ => return None,
        },
        data: flag(&bytes[3])?,
        length: little(&bytes[4..]),
    })
}

fn flag(byte: &u8) -> Option<bool> {
    match byte {
        0 => Some(false),
        1 => Some(true),
        _ => None,
    }
}

fn little(bytes: &[u8]) -> u64 {
    let high_first = bytes.iter().rev();
    high_first.fold(0, |number, byte| number << 8 | u64::from(*byte))
}

#[cfg(test)]
mod tests {
    use super::*;

    fn odd() -> State {
        let mut state = State::fresh();
        state.dead = 200;
        state.pending = 0x56_1234;
        state.slots[0] = Slot {
            id: 0x0203,
            phase: Phase::Running,
            data: true,
            length: 0x0506,
        };
        state.slots[6].phase = Phase::Draining;
        state.slots[7].phase = Phase::Waiting;
        state.open.extend([1, 255]);
        state.count = 0x89;
        state
    }

    #[test]
    fn layout() {
        let bytes = write(&odd());
        assert_eq!((STREAMS_AT, COUNT_AT, STATE), (52, 180, 181));
        assert_eq!(bytes.len(), STATE);
        assert_eq!(bytes[..10], [200, 0x34, 0x12, 0x56, 3, 2, 3, 1, 6, 5]);
        assert_eq!(bytes[10..40], [0; 30]);
        assert_eq!(bytes[40..52], [0, 0, 4, 0, 0, 0, 0, 0, 2, 0, 0, 0]);
        let streams = [&[1][..], &[0; 126], &[1]].concat();
        assert_eq!(bytes[STREAMS_AT..COUNT_AT], streams);
        assert_eq!(bytes[COUNT_AT..], [0x89]);
        assert_eq!(write(&State::fresh()), [0; STATE]);
    }

    #[test]
    fn read_back() {
        for state in [odd(), State::fresh()] {
            assert_eq!(read(&write(&state)), Some(state));
        }
    }

    #[test]
    fn no_state() {
        let good = write(&odd());
        assert_eq!(read(&good[1..]), None);
        assert_eq!(read(&good[..COUNT_AT]), None);
        assert_eq!(read(&[&good[..], &[0]].concat()), None);
        assert_eq!(read(&[]), None);
        for (place, byte, is_state) in [
            (3, 255, true),
            (6, 3, true),
            (6, 4, true),
            (6, 5, false),
            (7, 2, false),
            (48, 255, false),
            (STREAMS_AT, 2, false),
            (COUNT_AT - 1, 0, true),
            (COUNT_AT - 1, 2, false),
            (COUNT_AT, 0, true),
            (COUNT_AT, 255, true),
            (0, 255, true),
        ] {
            let mut bytes = good.clone();
            bytes[place] = byte;
            assert_eq!(read(&bytes).is_some(), is_state, "{place} {byte}");
        }
    }
}
