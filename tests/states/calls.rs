//! One state's bytes, lent to each call, beside the second implementation.

use crate::real::Real;
use crate::tally::Tally;
use generate::ROW_LENGTHS;
use hgrpc::{feed_bytes, finish_bytes, fresh_bytes, Fed, OUTPUT, WORK};
use second::bytes;
use second::receiver::Receiver;
use second::state::State;
use std::fmt::Display;

const UNWRITTEN: u8 = 0xa5;

/// The buffers that are lent to feeds on one state, beside what they are before each:
/// they are long, and most calls leave them.
pub struct Lent {
    work: Vec<u8>,
    output: Vec<u8>,
    area: Vec<u8>,
    unwritten: Vec<u8>,
}

impl Lent {
    /// `work` is the work area of the state.
    pub fn new(work: &[u8]) -> Lent {
        let unwritten = vec![UNWRITTEN; 3 * OUTPUT];
        Lent {
            work: work.to_vec(),
            output: unwritten.clone(),
            area: work.to_vec(),
            unwritten,
        }
    }

    /// Whether the first bytes of both are what they are before a call.
    fn is_kept(&self, size: usize, room: usize) -> bool {
        self.work[..size] == self.area[..size] && self.output[..room] == self.unwritten[..room]
    }

    /// Makes both what they are before a call.
    fn restore(&mut self) {
        self.work.copy_from_slice(&self.area);
        self.output.copy_from_slice(&self.unwritten);
    }
}

/// The calls on states, with inputs and ids in turn.
pub struct Calls {
    inputs: Vec<Vec<u8>>,
    turn: usize,
    pub tally: Tally,
}

impl Calls {
    pub fn new(seed: u64) -> Calls {
        let captures = (0..15).map(|index| generate::capture(seed, index));
        let mut inputs: Vec<Vec<u8>> = captures
            .map(|capture| capture.into_iter().take(400).collect())
            .collect();
        inputs.push(Vec::new());
        Calls {
            inputs,
            turn: 0,
            tally: Tally::default(),
        }
    }

    /// Each call on these bytes. Now and then a feed with a work area or an
    /// output that is too short, or of other lengths, too.
    pub fn hold(&mut self, state: &[u8], lent: &mut Lent) -> Result<(), String> {
        self.turn += 1;
        let input = self.inputs[self.turn % self.inputs.len()].clone();
        self.feed(state, lent, [WORK, OUTPUT], &input)?;
        if self.turn % 16 == 1 {
            self.feed(state, lent, [WORK - 1, OUTPUT], &input)?;
            self.feed(state, lent, [WORK, OUTPUT - 1], &input)?;
            self.feed(state, lent, [WORK, 3 * OUTPUT], &input)?;
            self.feed(state, lent, [0, 0], &[])?;
        }
        self.lamp(state, self.turn)?;
        let read = bytes::read(state);
        let id = read.map(|read| read.slots[self.turn % 8].id);
        self.finish(state, id.unwrap_or(self.turn as u16))
    }

    /// Bytes of other lengths are no state: 2 before 3, and 3.
    pub fn other_lengths(&mut self, real: &Real, lent: &mut Lent) -> Result<(), String> {
        let longer = [&real.state[..], &[0; 200]].concat();
        let length = real.state.len();
        for other in [0, 1, length - 1, length + 1, 233, longer.len()] {
            let bytes = &longer[..other];
            self.feed(bytes, lent, [WORK, OUTPUT], b"\0")?;
            self.feed(bytes, lent, [WORK - 1, OUTPUT], b"\0")?;
            self.finish(bytes, 1)?;
            for turn in 0..ROW_LENGTHS {
                self.lamp(bytes, turn)?;
            }
            let mut state = bytes.to_vec();
            let number = fresh_bytes(&mut state);
            must(number == 3 && state == bytes, "fresh of another length")?;
        }
        let mut state = real.state.clone();
        let number = fresh_bytes(&mut state);
        let fresh = bytes::write(&State::fresh());
        must(number == 0 && state == fresh, "fresh of a state's length")
    }

    /// A feed with a work area and an output of these lengths.
    fn feed(
        &mut self,
        state: &[u8],
        lent: &mut Lent,
        [size, room]: [usize; 2],
        input: &[u8],
    ) -> Result<(), String> {
        let mut left = state.to_vec();
        let (work, output) = (&mut lent.work[..size], &mut lent.output[..room]);
        let fed = feed_bytes(&mut left, work, input, output);
        let number = fed.number;
        let defined = matches!(number, 0..=3 | 5 | 11..=29);
        must(defined, format_args!("feed answers {number}"))?;
        let read = bytes::read(state);
        self.tally.add_feed(number, read.as_ref());
        let dead = read.as_ref().is_some_and(|state| state.dead != 0);
        if matches!(number, 1..=3) || dead {
            let kept = left == state && lent.is_kept(size, room);
            must(
                kept,
                format_args!("feed answers {number} and changes a byte"),
            )?;
            must(fed == nothing(number), "feed refuses and takes bytes")?;
        }
        let Some(read) = read else {
            let wanted = nothing(if size < WORK { 2 } else { 3 });
            return must(fed == wanted, format_args!("feed {fed:?}, not {wanted:?}"));
        };
        let held = as_second(
            fed,
            &left,
            lent,
            Receiver::start(read, lent.area[..size].to_vec()),
            (input, room),
        );
        if !lent.is_kept(size, room) {
            lent.restore();
        }
        held
    }

    fn finish(&mut self, state: &[u8], id: u16) -> Result<(), String> {
        let mut left = state.to_vec();
        let number = finish_bytes(&mut left, id);
        self.tally.add("finish", number);
        let defined = matches!(number, 0 | 3 | 4 | 11..=29);
        must(defined, format_args!("finish answers {number}"))?;
        let kept = number == 0 || left == state;
        must(
            kept,
            format_args!("finish answers {number} and changes a byte"),
        )?;
        let (wanted, bytes) = wanted_finish(state, id);
        must(
            number == wanted,
            format_args!("finish {number}, not {wanted}"),
        )?;
        must(left == bytes, "finish leaves other bytes")
    }
}

fn nothing(number: u32) -> Fed {
    Fed {
        number,
        taken: 0,
        written: 0,
    }
}

/// The reason is made only where it is needed, for most calls are as they must be.
pub fn must(holds: bool, reason: impl Display) -> Result<(), String> {
    match holds {
        true => Ok(()),
        false => Err(reason.to_string()),
    }
}

/// What a feed answered and left is what the second receiver answers and leaves.
fn as_second(
    fed: Fed,
    state: &[u8],
    lent: &Lent,
    mut receiver: Receiver,
    (input, room): (&[u8], usize),
) -> Result<(), String> {
    let mut output = lent.unwritten[..room].to_vec();
    let answer = receiver.feed(input, &mut output);
    let wanted = Fed {
        number: answer.number.into(),
        taken: answer.taken,
        written: answer.written,
    };
    must(
        fed == wanted,
        format_args!("feed answers {fed:?}, not {wanted:?}"),
    )?;
    let work = receiver.work();
    let same = state == bytes::write(&receiver.state())
        && lent.work[..work.len()] == *work
        && lent.output[..room] == output;
    must(same, "feed leaves other bytes")
}

fn wanted_finish(state: &[u8], id: u16) -> (u32, Vec<u8>) {
    let Some(read) = bytes::read(state) else {
        return (3, state.to_vec());
    };
    let mut receiver = Receiver::start(read, Vec::new());
    let number = receiver.finish(id);
    (number.into(), bytes::write(&receiver.state()))
}
