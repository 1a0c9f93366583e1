//! A state as the words of a line: the dead number, the pending count, the
//! eight slots, the ids of the open streams, and the count of active requests.
//! An entry of a row is a word too.

use crate::words::{bit, number, parts};
use second::bytes::{MOST_LENGTH, MOST_PENDING};
use second::state::{Phase, Slot, State};
use std::collections::BTreeSet;

const LETTERS: [(u8, Phase); 5] = [
    (b'f', Phase::Free),
    (b'c', Phase::Collecting),
    (b'w', Phase::Waiting),
    (b'r', Phase::Running),
    (b'd', Phase::Draining),
];

/// The state that these words spell, if each number fits its field.
pub fn read(words: &[&[u8]]) -> Option<State> {
    let [dead, pending, slots @ .., streams, count] = words else {
        return None;
    };
    let slots: Option<Vec<Slot>> = slots.iter().map(|word| slot(word)).collect();
    Some(State {
        dead: number(dead, 255)? as u8,
        pending: number(pending, MOST_PENDING)?,
        slots: slots?.try_into().ok()?,
        open: open(streams)?,
        count: number(count, 255)? as u8,
    })
}

fn slot(word: &[u8]) -> Option<Slot> {
    let [id, [letter], data, length] = parts(word, b':')[..] else {
        return None;
    };
    let known = LETTERS.iter().find(|(known, _)| known == letter);
    Some(Slot {
        id: number(id, 65_535)? as u16,
        phase: known?.1,
        data: bit(data)?,
        length: number(length, MOST_LENGTH)?,
    })
}

/// Odd ids that rise, with commas between, or `-`.
fn open(word: &[u8]) -> Option<BTreeSet<u8>> {
    let mut open = BTreeSet::new();
    if word == b"-" {
        return Some(open);
    }
    let mut last = 0;
    for id in parts(word, b',') {
        let id = number(id, 255)? as u8;
        if id % 2 == 0 || id <= last {
            return None;
        }
        open.insert(id);
        last = id;
    }
    Some(open)
}

pub fn text(state: &State) -> String {
    let mut words = vec![state.dead.to_string(), state.pending.to_string()];
    for slot in &state.slots {
        let known = LETTERS.iter().find(|(_, phase)| *phase == slot.phase);
        let letter = char::from(known.expect("each phase has its letter").0);
        let (id, data, length) = (slot.id, u8::from(slot.data), slot.length);
        words.push(format!("{id}:{letter}:{data}:{length}"));
    }
    let open: Vec<String> = state.open.iter().map(u8::to_string).collect();
    words.push(match &open[..] {
        [] => "-".to_string(),
        _ => open.join(","),
    });
    words.push(state.count.to_string());
    words.join(" ")
}

/// The three bytes of an entry, with a space before it. A byte that is no phase is
/// told as `x`.
pub fn entry(bytes: &[u8]) -> String {
    let id = u16::from(bytes[0]) + 256 * u16::from(bytes[1]);
    let known = LETTERS.get(usize::from(bytes[2]));
    let letter = known.map_or(b'x', |(letter, _)| *letter);
    format!(" {id}:{}", char::from(letter))
}
