//! Any bytes as a state, which a caller may have spoiled: every call has an answer.

use crate::pieces::step;
use crate::{fail, EDGES};
use generate::Random;
use hgrpc::raw::{self, Comparing, LogPartial, Scanning};
use replay_lines::Room;

/// The most bytes of a piece.
const PIECE: usize = 24;

fn number(random: &mut Random) -> u64 {
    let any = random.next();
    random.pick(&[
        0,
        0,
        1,
        2,
        5,
        6,
        7,
        20,
        1 << 32,
        u64::MAX - 1,
        u64::MAX,
        any,
    ])
}

fn partial(random: &mut Random) -> LogPartial {
    let mut head = [0; 6];
    head.fill_with(|| random.pick(&[0, 0, 1, 3, 0xff]));
    LogPartial {
        head,
        held: number(random) as usize,
        left: number(random),
    }
}

fn comparing(random: &mut Random) -> Comparing {
    Comparing {
        number: number(random),
        length: number(random),
        first: partial(random),
        second: partial(random),
        alike: number(random),
    }
}

fn piece(room: &mut Room, random: &mut Random) -> Vec<u8> {
    let length = random.below(PIECE + 1);
    let bytes: Vec<u8> = (0..length)
        .map(|_| random.pick(&[0, 0, 0, 1, 2, 9, 0xff]))
        .collect();
    room.put(&bytes);
    bytes
}

fn compared(state: &Comparing) -> bool {
    // The pointer is to a comparison.
    let told = unsafe { raw::hgrpc_compared(state) };
    let parts = [state.first, state.second];
    let none = parts
        .iter()
        .all(|part| part.held % 6 == 0 && part.left == 0);
    if told != none {
        fail(&format!("difference: {told} of {state:?}"));
    }
    told
}

pub fn run(seed: u64, count: u64) {
    let random = &mut Random::new(seed ^ 0xa4b1);
    let mut rooms = EDGES.map(|edge| [Room::new(PIECE, edge), Room::new(PIECE, edge)]);
    let (mut entries, mut ends) = (0, 0);
    for turn in 0..count {
        let [one, other] = &mut rooms[turn as usize % 2];
        let mut state = comparing(random);
        for _ in 0..4 {
            let lengths = [piece(one, random).len(), piece(other, random).len()];
            let pieces = [one.lent(lengths[0]), other.lent(lengths[1])];
            let last = [random.percent(30), random.percent(30)];
            let (entry, _) = step(&mut state, pieces, last);
            entries += u64::from(entry.is_some());
            ends += u64::from(compared(&state));
        }
        scan(one, random);
    }
    if entries < 1_000 || ends < 1_000 {
        fail(&format!(
            "{entries} entries and {ends} ends only, too seldom"
        ));
    }
    println!("steps: {count} times any bytes as a state, {entries} entries told");
}

/// A record that is not under way starts where the log stands.
fn scan(room: &mut Room, random: &mut Random) {
    let mut state = Scanning {
        record: partial(random),
        start: number(random),
        place: number(random),
    };
    let piece = piece(room, random);
    let lent = room.lent(piece.len());
    // The pointer comes with its own length.
    unsafe { raw::hgrpc_scan(&mut state, lent.as_ptr(), lent.len()) };
    assert!(room.lent(piece.len()) == piece, "a piece is only read");
}
