//! The count and the row (E6) of one state's bytes.

use crate::calls::{must, Calls};
use generate::row_length;
use hgrpc::{raw, row_bytes};
use second::bytes;
use second::lamp;
use second::state::State;

const UNFILLED: u8 = 0xa5;

impl Calls {
    /// The count, and a row whose length is the turn's. Both only read the state.
    pub fn lamp(&mut self, state: &[u8], turn: usize) -> Result<(), String> {
        let lent = state.to_vec();
        self.active(&lent)?;
        self.row(&lent, row_length(turn))?;
        must(lent == state, "active or row changes the state")
    }

    fn active(&mut self, state: &[u8]) -> Result<(), String> {
        let mut count = usize::MAX;
        // The pointer comes with its own length.
        let number = unsafe { raw::hgrpc_active(state.as_ptr(), state.len(), &mut count) };
        self.tally.add("active", number);
        let wanted = bytes::read(state).map_or((3, 0), |read| lamp::active(&read));
        let wanted = (u32::from(wanted.0), usize::from(wanted.1));
        let answer = (number, count);
        must(
            answer == wanted,
            format_args!("active {answer:?}, not {wanted:?}"),
        )
    }

    fn row(&mut self, state: &[u8], length: usize) -> Result<(), String> {
        let mut row = vec![UNFILLED; length];
        let number = row_bytes(state, &mut row);
        let mut filled = vec![UNFILLED; length];
        let read = bytes::read(state);
        let dead = read.as_ref().is_some_and(|read| read.dead != 0);
        self.tally.add_row(length, dead, number);
        let fill = |read: &State| lamp::fill(read, &mut filled).into();
        let wanted = read.as_ref().map_or(3, fill);
        must(
            number == wanted,
            format_args!("row of {length} bytes {number}, not {wanted}"),
        )?;
        must(row == filled, "row leaves other bytes")
    }
}
