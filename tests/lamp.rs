//! The count of active requests after every call of a session, by the archive (E6). It
//! is held to a tally that knows no rules: the bytes taken say where frames end, which
//! are new and whose data has all come, the answers which frames and which finishes were
//! accepted. A finish of an id whose data is still to come leaves the count: it falls
//! with the last of the data (E8). A call that is refused, or on a dead channel, leaves
//! it too. A row is asked for too, of a number of bytes that goes on from line to line.
//!
//!     lamp SEED SESSIONS
//!
//! A session starts from the fresh state, or from a state that is set, whose ids in each
//! phase are known then; there, and after a poke, the bytes pending are those in the work
//! area.

#[path = "lamp/history.rs"]
mod history;
#[path = "tally.rs"]
mod tally;

use generate::row_length;
use hgrpc::{raw, row_bytes};
use history::History;
use replay_lines::{Driver, Edge};
use second::bytes;
use second::lamp;
use second::replay::from_hex;
use second::state::{plain_ways, State};
use std::process::exit;

/// What `hgrpc_active` tells of a state's bytes.
fn active(state: &[u8]) -> (u32, i64) {
    let mut count = usize::MAX;
    // The pointer comes with its own length.
    let number = unsafe { raw::hgrpc_active(state.as_ptr(), state.len(), &mut count) };
    (number, count as i64)
}

/// A row of so many bytes is as the second implementation fills it.
fn row(driver: &Driver, length: usize) -> Result<(), String> {
    let (mut row, mut filled) = (vec![0xa5; length], vec![0xa5; length]);
    let number = row_bytes(driver.state(), &mut row);
    let wanted = lamp::fill(&state(driver), &mut filled);
    match number == wanted.into() && row == filled {
        true => Ok(()),
        false => Err(format!(
            "row of {length} bytes: {number} {row:?}, not {wanted} {filled:?}"
        )),
    }
}

fn state(driver: &Driver) -> State {
    bytes::read(driver.state()).expect("a call leaves the bytes of a state")
}

/// The bytes of the frame under way. A work area that is too short has none.
fn pending(driver: &Driver) -> &[u8] {
    let held = driver.work().get(..state(driver).pending as usize);
    held.unwrap_or_default()
}

fn number(word: &str) -> i64 {
    word.parse().expect("a line that was answered has numbers")
}

/// The first bytes of an input.
fn taken(input: &str, count: &str) -> Vec<u8> {
    let mut bytes = from_hex(input).expect("a line that was answered has bytes");
    bytes.truncate(number(count) as usize);
    bytes
}

/// Has the line answered, and holds the archive's count to the tally.
fn line(line: &str, driver: &mut Driver, history: &mut History) -> Result<(), String> {
    let answer = driver.answer(line.as_bytes()).unwrap_or_default();
    let asked: Vec<&str> = line.split(' ').collect();
    let told: Vec<&str> = answer.split(' ').collect();
    match (&told[..], &asked[..]) {
        (["fresh"], _) => history.start(0, &[], &[]),
        (["set"], [.., count]) => {
            let slots = state(driver).slots;
            history.start(number(count), &slots, pending(driver));
        }
        (["poked"], _) => history.poked(pending(driver)),
        (["fed", answer, count, ..], [_, _, input]) => {
            history.fed(&taken(input, count), number(answer))
        }
        (["finished", answer], [_, id]) => history.finished(number(id) as u16, number(answer)),
        _ => {}
    }
    let (state, count) = (state(driver), history.count());
    if i64::from(state.count) != count {
        return Err(format!("the count is {}, not {count}", state.count));
    }
    let wanted = match plain_ways(&state)[..] {
        [] => (0, count),
        _ => (3, 0),
    };
    match active(driver.state()) {
        told if told == wanted => Ok(()),
        told => Err(format!("active tells {told:?}, not {wanted:?}")),
    }
}

fn fail(reason: &str) -> ! {
    println!("lamp: {reason}");
    exit(1)
}

fn run(seed: u64, sessions: u64) {
    let mut driver = Driver::new(Edge::None);
    let mut history = History::new();
    let mut lines = 0;
    for index in 0..sessions {
        for (place, text) in (1..).zip(generate::session(seed, index)) {
            lines += 1;
            let held = line(&text, &mut driver, &mut history);
            if let Err(reason) = held.and_then(|()| row(&driver, row_length(lines))) {
                let asked: String = text.chars().take(60).collect();
                fail(&format!(
                    "seed {seed}, session {index}, line {place} ({asked}): {reason}"
                ));
            }
        }
    }
    if let Some(rare) = history.tally.rare() {
        fail(&format!(
            "\"{rare}\" came up too seldom in {sessions} sessions"
        ));
    }
    println!("lamp: {sessions} sessions, {lines} lines, and after each the count is new frames accepted minus finishes of running ids minus drains ended, and the row as the second implementation's");
}

fn main() {
    let argument = |place| std::env::args().nth(place)?.parse().ok();
    match (argument(1), argument(2)) {
        (Some(seed), Some(sessions)) => run(seed, sessions),
        _ => fail("SEED SESSIONS"),
    }
}
