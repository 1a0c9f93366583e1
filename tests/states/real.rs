//! Real states: those that generated sessions leave in the archive's bytes.

use replay_lines::{Driver, Edge};
use second::bytes;
use second::state::{plain_ways, Phase, State, WORK};
use std::collections::BTreeMap;

pub struct Real {
    pub kind: &'static str,
    pub state: Vec<u8>,
    pub work: Vec<u8>,
}

type Is = fn(&State) -> bool;

const KINDS: [(&str, Is); 12] = [
    ("fresh", |state| *state == State::fresh()),
    ("mid-header", |state| (1..8).contains(&state.pending)),
    ("mid-frame", |state| state.pending >= 8),
    ("collecting", |state| has(state, Phase::Collecting)),
    ("waiting", |state| has(state, Phase::Waiting)),
    ("running", |state| has(state, Phase::Running)),
    ("draining", |state| has(state, Phase::Draining)),
    ("all slots used", |state| {
        state.slots.iter().all(|slot| slot.phase != Phase::Free)
    }),
    ("collecting in mid-frame", |state| {
        has(state, Phase::Collecting) && state.pending > 0
    }),
    ("draining in mid-frame", |state| {
        has(state, Phase::Draining) && state.pending > 0
    }),
    ("dead", |state| state.dead != 0),
    ("dead with requests", |state| {
        state.dead != 0 && has(state, Phase::Running)
    }),
];

fn has(state: &State, phase: Phase) -> bool {
    state.slots.iter().any(|slot| slot.phase == phase)
}

/// The states found so far, by their kind.
type Found = BTreeMap<&'static str, Vec<Real>>;

/// Keeps a state under each of its kinds that has not enough yet.
fn keep(found: &mut Found, each: usize, state: &[u8], work: &[u8]) {
    let Some(read) = bytes::read(state).filter(|read| plain_ways(read).is_empty()) else {
        return;
    };
    for (kind, is) in KINDS {
        let of_kind = found.entry(kind).or_default();
        let known = of_kind.iter().any(|real| real.state == state);
        if of_kind.len() < each && !known && is(&read) {
            of_kind.push(Real {
                kind,
                state: state.to_vec(),
                work: work.to_vec(),
            });
        }
    }
}

/// As many states of each kind, all different; there is but one fresh one. An
/// error names a kind of which the sessions have too few.
pub fn real_states(seed: u64, each: usize) -> Result<Vec<Real>, String> {
    let mut driver = Driver::new(Edge::None);
    let mut found = Found::new();
    for index in 0..2_000 {
        for line in generate::session(seed, index) {
            if line == "state" {
                continue;
            }
            driver.answer(line.as_bytes());
            if let Some(work) = driver.work().get(..WORK) {
                keep(&mut found, each, driver.state(), work);
            }
        }
    }
    for (kind, _) in KINDS {
        let wanted = if kind == "fresh" { 1 } else { each };
        let count = found.get(kind).map_or(0, Vec::len);
        if count < wanted {
            return Err(format!("only {count} states are {kind}"));
        }
    }
    Ok(found.into_values().flatten().collect())
}
