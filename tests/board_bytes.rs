//! Calls on any bytes as a board, held to the second implementation's reading of
//! these bytes: 3 exactly where they are no board, and where a call refuses nothing
//! at all is changed.
//!
//!     board_bytes SEED RANDOM
//!
//! A board that commands have made is tried with every change of a single byte, and
//! with other lengths. Beside it are RANDOM boards, whose unused places have any
//! bytes, many of them spoiled; each goes on for a few commands.

#[path = "tally.rs"]
mod tally;

use generate::Random;
use hgrpc::{apply_bytes, first_board_bytes, raw, BOARD, COILS};
use second::board::Board;
use std::process::exit;
use tally::Tally;

const MET: [&str; 14] = [
    "apply 0",
    "apply 3",
    "apply 24",
    "apply 25",
    "apply 26",
    "apply 40",
    "apply 41",
    "apply 42",
    "apply 43",
    "a switch byte above 1",
    "a label length above 16",
    "another length",
    "a board with unused places that are not 0",
    "a coil past the last",
];

/// How many commands there are to take in turn.
const COMMANDS: u64 = 9_973;
/// How many commands a random board is to do one after another.
const HISTORY: usize = 4;

/// The calls on boards, with commands in turn.
struct Calls {
    commands: Vec<Vec<u8>>,
    turn: usize,
    tally: Tally,
}

fn must(met: bool, reason: &str) -> Result<(), String> {
    met.then_some(()).ok_or(reason.to_string())
}

/// The number and the switch that the call leaves, which was true before.
fn switch(board: &[u8], coil: usize) -> (u32, bool) {
    let mut on = true;
    // The pointer comes with its own length.
    let number = unsafe { raw::hgrpc_board_switch(board.as_ptr(), board.len(), coil, &mut on) };
    (number, on)
}

/// The number, the place and the size that the call leaves.
fn label(board: &[u8], coil: usize) -> (u32, usize, usize) {
    let (mut at, mut size) = (9, 9);
    // As above.
    let number =
        unsafe { raw::hgrpc_board_label(board.as_ptr(), board.len(), coil, &mut at, &mut size) };
    (number, at, size)
}

impl Calls {
    fn new(seed: u64) -> Calls {
        let steps = (0..COMMANDS).map(|index| generate::board_step(seed, index));
        Calls {
            commands: steps.map(|step| step.command).collect(),
            turn: 0,
            tally: Tally::of(&MET),
        }
    }

    /// All calls on these bytes.
    fn hold(&mut self, bytes: &[u8]) -> Result<(), String> {
        let read = Board::read(bytes);
        self.apply(bytes, read.clone())?;
        for coil in [self.turn % COILS, COILS, 1 << 32, usize::MAX] {
            self.look(bytes, &read, coil)?;
        }
        let mut left = bytes.to_vec();
        let wanted = match bytes.len() {
            BOARD => (0, vec![0; BOARD]),
            _ => (3, bytes.to_vec()),
        };
        let number = first_board_bytes(&mut left);
        must((number, left) == wanted, "another first board")
    }

    /// The bytes that the next command leaves.
    fn apply(&mut self, bytes: &[u8], read: Option<Board>) -> Result<Vec<u8>, String> {
        self.turn += 1;
        let command = &self.commands[self.turn % self.commands.len()];
        let mut left = bytes.to_vec();
        let number = apply_bytes(&mut left, command);
        must(
            number == 0 || left == bytes,
            &format!("{number}, and a byte changed"),
        )?;
        let (wanted, after) = match read {
            None => (3, bytes.to_vec()),
            Some(mut board) => (board.apply(command), board.write()),
        };
        must(number == wanted, &format!("apply {number}, not {wanted}"))?;
        must(left == after, "apply leaves other bytes")?;
        let name = MET.iter().find(|name| **name == format!("apply {number}"));
        self.tally.add_if(true, name.ok_or("an unknown number")?);
        Ok(left)
    }

    fn look(&mut self, bytes: &[u8], read: &Option<Board>, coil: usize) -> Result<(), String> {
        let (number, on, at, size) = match read {
            None => (3, false, 0, 0),
            Some(board) => match board.coils.get(coil) {
                None => (42, false, 0, 0),
                Some(held) => (0, held.on, 18 * coil + 2, held.label.len()),
            },
        };
        self.tally.add_if(number == 42, "a coil past the last");
        let told = switch(bytes, coil);
        must(told == (number, on), &format!("switch {coil}: {told:?}"))?;
        let told = label(bytes, coil);
        must(
            told == (number, at, size),
            &format!("label {coil}: {told:?}"),
        )
    }

    /// A few commands on these bytes, each on what the one before it left.
    fn history(&mut self, mut bytes: Vec<u8>) -> Result<(), String> {
        for _ in 0..HISTORY {
            bytes = self.apply(&bytes, Board::read(&bytes))?;
        }
        Ok(())
    }

    /// Every change of one byte, and every other length near it.
    fn changes(&mut self, board: &[u8]) -> Result<(), String> {
        for place in 0..BOARD {
            for step in 0..=255 {
                let mut bytes = board.to_vec();
                bytes[place] = bytes[place].wrapping_add(step);
                self.hold(&bytes)
                    .map_err(|reason| format!("byte {place} plus {step}: {reason}"))?;
            }
        }
        let longer = [board, board].concat();
        for length in (0..BOARD).chain(BOARD + 1..=longer.len()) {
            self.tally.add_if(true, "another length");
            self.hold(&longer[..length])
                .map_err(|reason| format!("{length} bytes: {reason}"))?;
        }
        Ok(())
    }

    /// A board of any bytes, spoiled half of the time.
    fn random(&mut self, random: &mut Random) -> Result<(), String> {
        let mut bytes = random.bytes(BOARD);
        for coil in bytes.chunks_mut(BOARD / COILS) {
            coil[0] %= 2;
            coil[1] %= 17;
        }
        let unused = Board::read(&bytes).is_some_and(|board| board.coils[3].label.len() < 16);
        self.tally.add_if(
            unused && bytes[71] != 0,
            "a board with unused places that are not 0",
        );
        let (kind, any) = (random.below(4), random.byte());
        let coil = &mut bytes[18 * random.below(COILS)..];
        match kind {
            0 => coil[0] = random.pick(&[2, 3, 128, 255, any | 2]),
            1 => coil[1] = random.pick(&[17, 18, 32, 255, any | 32]),
            _ => {}
        }
        self.tally.add_if(kind == 0, "a switch byte above 1");
        self.tally.add_if(kind == 1, "a label length above 16");
        self.hold(&bytes)
            .and_then(|()| self.history(bytes.clone()))
            .map_err(|reason| format!("{bytes:02x?}: {reason}"))
    }
}

fn run(seed: u64, count: u64) -> Result<(), String> {
    let mut calls = Calls::new(seed);
    let mut board = Board::first();
    for command in &calls.commands {
        board.apply(command);
    }
    calls.changes(&board.write())?;
    let random = &mut Random::new(seed);
    for _ in 0..count {
        calls.random(random)?;
    }
    if let Some(rare) = calls.tally.rare() {
        return Err(format!("\"{rare}\" came up too seldom"));
    }
    let turns = calls.turn;
    println!("board bytes: every change of a byte, {count} random boards, {turns} commands, each call as the second implementation's");
    Ok(())
}

fn main() {
    let arguments: Vec<String> = std::env::args().skip(1).collect();
    let numbers: Option<Vec<u64>> = arguments.iter().map(|word| word.parse().ok()).collect();
    let Some([seed, count]) = numbers.as_deref() else {
        println!("board bytes: SEED RANDOM");
        exit(2)
    };
    if let Err(reason) = run(*seed, *count) {
        println!("board bytes: {reason}");
        exit(1);
    }
}
