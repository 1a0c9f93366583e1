//! Bodies of the longest length that four bytes can tell. One piece stands for all of their bytes.

use crate::fail;
use crate::pieces::step;
use hgrpc::raw::{self, Comparing, Scanning};
use second::differences::Entry;
use std::fmt::Debug;

const HEAD: [u8; 6] = [0xff, 0xff, 0xff, 0xff, 1, 0];
const OTHER: [u8; 6] = [0xff, 0xff, 0xff, 0xff, 1, 1];
const BODY: u64 = u32::MAX as u64;
const PIECE: usize = 1 << 20;

pub fn run() {
    let piece = vec![0; PIECE];
    scanned(&piece);
    compared(&piece, [HEAD, OTHER], [PIECE, 60_001], [BODY, BODY]);
    compared(&piece, [HEAD, [1, 0, 0, 0, 1, 0]], [PIECE, 1], [BODY, 1]);
    compared(&piece, [[0, 0, 0, 0, 1, 0], HEAD], [1, PIECE], [0, BODY]);
    println!("steps: bodies of {BODY} bytes, read through and compared");
}

fn is<T: PartialEq + Debug>(got: T, wanted: T) {
    if got != wanted {
        fail(&format!("difference: {got:?}, not {wanted:?}"));
    }
}

fn scan(state: &mut Scanning, piece: &[u8]) {
    // The pointer comes with its own length.
    unsafe { raw::hgrpc_scan(state, piece.as_ptr(), piece.len()) }
}

/// Where the record under way starts, and how much was taken.
fn stands(state: &Scanning, start: u64, place: u64) {
    is((state.start, state.place), (start, place));
}

/// A record with such a body, one with none, and two bytes of one more.
fn scanned(piece: &[u8]) {
    let mut state = Scanning::default();
    let mut left = BODY;
    scan(&mut state, &HEAD);
    while left > 0 {
        stands(&state, 0, 6 + BODY - left);
        let count = left.min(PIECE as u64);
        scan(&mut state, &piece[..count as usize]);
        left -= count;
    }
    let end = 6 + BODY;
    stands(&state, end, end);
    scan(&mut state, &[0, 0, 0, 0, 1, 0]);
    stands(&state, end + 6, end + 6);
    scan(&mut state, &[0, 0]);
    stands(&state, end + 6, end + 8);
}

/// Records with these heads, and behind them equal ones with no body.
fn compared(piece: &[u8], heads: [[u8; 6]; 2], sizes: [usize; 2], lengths: [u64; 2]) {
    let mut state = Comparing::default();
    let [first, second] = lengths.map(|length| Some(length as usize));
    let wanted = Entry {
        number: 1,
        first,
        second,
    };
    let told = step(&mut state, [&heads[0], &heads[1]], [false; 2]);
    is(told, (Some(wanted), [6, 6]));
    let mut left = lengths;
    while left != [0, 0] {
        let counts = [0, 1].map(|log| left[log].min(sizes[log] as u64) as usize);
        let pieces = counts.map(|count| &piece[..count]);
        let told = step(&mut state, pieces, [false; 2]);
        is(told, (None, counts));
        left = [left[0] - counts[0] as u64, left[1] - counts[1] as u64];
    }
    let last = [[0, 0, 0, 0, 7, 7], [0, 0, 0, 0, 7, 8]];
    let wanted = Entry {
        number: 2,
        first: Some(0),
        second: Some(0),
    };
    let told = step(&mut state, [&last[0], &last[1]], [true; 2]);
    is(told, (Some(wanted), [6, 6]));
    // The pointer is to a comparison.
    is(unsafe { raw::hgrpc_compared(&state) }, true);
}
