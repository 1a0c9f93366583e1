//! What the panel asks of a state (E6): how many requests are active, for the lamp,
//! and a row with an entry for each slot, for the screen. The state is only read, and
//! a dead one is asked like a live one.

use crate::state::{plain_ways, State, SLOTS};

/// The bytes of an entry: the id, its low byte first, and the phase.
pub const ENTRY: usize = 2 + 1;
/// The bytes of the eight entries.
pub const ROW: usize = SLOTS * ENTRY;

/// The number, and the count, which is 0 if it is refused.
pub fn active(state: &State) -> (u8, u8) {
    match plain_ways(state)[..] {
        [] => (0, state.count),
        _ => (3, 0),
    }
}

type Applies = fn(&State, usize) -> bool;

/// What refuses a row of a length: the first that applies.
const REFUSALS: [(u8, Applies); 2] = [
    (3, |state, _| !plain_ways(state).is_empty()),
    (9, |_, length| length < ROW),
];

/// Fills the row and answers 0, or the number with which it is refused.
pub fn fill(state: &State, row: &mut [u8]) -> u8 {
    let mut refusals = REFUSALS.iter();
    if let Some((number, _)) = refusals.find(|(_, applies)| applies(state, row.len())) {
        return *number;
    }
    for (entry, slot) in row.chunks_exact_mut(ENTRY).zip(&state.slots) {
        let [low, high] = slot.id.to_le_bytes();
        entry.copy_from_slice(&[low, high, slot.phase as u8]);
    }
    0
}

#[cfg(test)]
mod tests {
    use super::*;
    use crate::state::{Phase, Slot, PENDING};

    /// Used and free slots in turn.
    fn busy() -> State {
        let mut state = State::fresh();
        let slot = |id: u16, phase: Phase| Slot {
            id,
            phase,
            data: matches!(phase, Phase::Waiting | Phase::Draining),
            length: 0,
        };
        state.slots[1] = slot(0x0201, Phase::Collecting);
        state.slots[3] = slot(5, Phase::Waiting);
        state.slots[4] = slot(7, Phase::Draining);
        state.slots[7] = slot(0xffff, Phase::Running);
        state.count = 4;
        state
    }

    const BUSY: [u8; ROW] = [
        0, 0, 0, 1, 2, 1, 0, 0, 0, 5, 0, 2, 7, 0, 4, 0, 0, 0, 0, 0, 0, 0xff, 0xff, 3,
    ];

    /// Live and dead, at every length.
    #[test]
    fn rows() {
        for dead in [0, 11, 29] {
            let state = State { dead, ..busy() };
            for length in 0..60 {
                let mut row = vec![0xa5; length];
                let number = fill(&state, &mut row);
                let (first, rest) = row.split_at(length.min(ROW));
                assert!(rest.iter().all(|byte| *byte == 0xa5), "{length}");
                if length < ROW {
                    assert_eq!((number, first), (9, &[0xa5; ROW][..length]));
                } else {
                    assert_eq!((number, first), (0, &BUSY[..]));
                }
            }
            assert_eq!(active(&state), (0, 4));
        }
    }

    /// 3 comes before 9.
    #[test]
    fn out_of_shape() {
        let shapeless = [
            State { dead: 10, ..busy() },
            State { count: 3, ..busy() },
            State { count: 5, ..busy() },
            State {
                pending: PENDING + 1,
                ..busy()
            },
        ];
        for state in shapeless {
            for length in [0, ROW - 1, ROW, ROW + 1] {
                let mut row = vec![0xa5; length];
                assert_eq!(fill(&state, &mut row), 3, "{state:?}");
                assert!(row.iter().all(|byte| *byte == 0xa5));
            }
            assert_eq!(active(&state), (3, 0), "{state:?}");
        }
    }
}
