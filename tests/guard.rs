//! The archive's calls with every buffer against a page that may not be
//! touched: right before it, and right behind it. A read or write outside the
//! lent bytes ends the program by a signal.
//!
//!     guard run SEED SESSIONS COMMANDS SENDS BOARDS LOGS PAIRS   answers are held to the second implementation
//!     guard over                                                 one byte more of each buffer than there is ends the program
//!     guard lend BUFFER                                          lends one byte more of BUFFER, for `over`

#[path = "guard/met.rs"]
mod met;
#[path = "guard/over.rs"]
mod over;

use hgrpc::raw::{LogEntry, LogPlace};
use hgrpc::{active_bytes, feed_bytes, finish_bytes, fresh_bytes, raw, row_bytes};
use hgrpc::{apply_bytes, first_board_bytes, label_bytes, switch_bytes, BOARD};
use hgrpc::{OUTPUT, REQUESTS, ROW, STATE, WORK};
use met::Met;
use replay_lines::{Driver, Edge, Room};
use second::bytes;
use second::lamp;
use second::replay::{to_hex, Replay};
use second::state::{Phase, Slot, State};
use std::process::exit;

const EDGES: [Edge; 2] = [Edge::Behind, Edge::Before];

/// The archive, at both edges, and the second implementation.
struct Sides {
    drivers: [Driver; 2],
    second: Replay,
    met: Met,
    answers: u64,
}

impl Sides {
    fn line(&mut self, line: &str) {
        let answer = self.second.answer(line.as_bytes());
        for (driver, edge) in self.drivers.iter_mut().zip(EDGES) {
            let guarded = driver.answer(line.as_bytes());
            if guarded != answer {
                let asked: String = line.chars().take(200).collect();
                fail(&format!(
                    "difference with the page {edge:?}\n{asked}\n{guarded:?}\nnot {answer:?}"
                ));
            }
            if driver.work() != self.second.receiver().work() {
                fail(&format!("another work area with the page {edge:?}"));
            }
            if driver.board() != self.second.board().write() {
                fail(&format!("another board with the page {edge:?}"));
            }
        }
        if let Some(answer) = answer {
            self.answers += 1;
            self.met.line(line, &answer);
        }
    }
}

/// The calls on a command, as lines.
fn lookups(seed: u64, index: u64) -> [String; 6] {
    let case = generate::case(seed, index);
    let (command, key) = (to_hex(&case.command), to_hex(&case.key));
    [
        format!("check {command}"),
        format!("name {command}"),
        format!("arg {command} {key}"),
        format!("int {command} {key}"),
        format!("count {command}"),
        format!("loose {command}"),
    ]
}

/// A request, and a question about its output: past what was written it is as it
/// was, and all of it where the request was refused.
fn sent(seed: u64, index: u64) -> [String; 2] {
    [generate::sending(seed, index).line(), "tail".to_string()]
}

fn run([seed, sessions, commands, sends, boards, logs, pairs]: [u64; 7]) {
    let mut sides = Sides {
        drivers: EDGES.map(Driver::new),
        second: Replay::default(),
        met: Met::default(),
        answers: 0,
    };
    let lines = over::lines()
        .into_iter()
        .chain((0..sessions).flat_map(|index| generate::session(seed, index)))
        .chain((0..commands).flat_map(|index| lookups(seed, index)))
        .chain((0..sends).flat_map(|index| sent(seed, index)))
        .chain((0..boards).flat_map(|index| generate::board_step(seed, index).lines()))
        .chain((0..logs).flat_map(|index| generate::conversion(seed, index).lines()))
        .chain((0..pairs).map(|index| generate::pair(seed, index).line()));
    lines.for_each(|line| sides.line(&line));
    EDGES.into_iter().for_each(other_states);
    EDGES.into_iter().for_each(row_lengths);
    EDGES.into_iter().for_each(other_boards);
    EDGES.into_iter().for_each(unread_data);
    EDGES.into_iter().for_each(compared_logs);
    EDGES.into_iter().for_each(stepped_logs);
    if let Some(missing) = sides.met.missing() {
        fail(&format!("{missing} never came up"));
    }
    let answers = sides.answers;
    println!("guard: {sessions} sessions, {commands} commands, {sends} sends, {boards} commands for a board, {logs} logs, {pairs} pairs of logs, {answers} answers at each edge, no byte outside touched");
}

/// States of other lengths than a state has: 3, or 2 if the work area is too
/// short, and nothing is changed.
fn other_states(edge: Edge) {
    let [mut state, mut work, mut input, mut output, mut row] =
        [2 * STATE, WORK, 8, OUTPUT, ROW].map(|most| Room::new(most, edge));
    for length in [0, 1, 7, STATE - 1, STATE + 1, 2 * STATE] {
        let bytes = vec![0; length];
        for (size, number) in [(0, 2), (WORK - 1, 2), (WORK, 3)] {
            let fed = feed_bytes(
                state.put(&bytes),
                work.lend(size),
                input.put(&[0; 8]),
                output.lend(OUTPUT),
            );
            assert_eq!((fed.number, fed.taken, fed.written), (number, 0, 0));
            assert_eq!(state.lent(length), bytes);
        }
        assert_eq!(finish_bytes(state.put(&bytes), 1), 3);
        assert_eq!(fresh_bytes(state.put(&bytes)), 3);
        assert_eq!(active_bytes(state.lent(length)), Err(3));
        for size in [0, ROW] {
            let lent = row.put(&[9; ROW][..size]);
            assert_eq!(row_bytes(state.lent(length), lent), 3);
            assert_eq!(row.lent(size), &[9; ROW][..size]);
        }
        assert_eq!(state.lent(length), bytes);
    }
}

/// Rows of every length to some more than eight entries, whole ones or not, of a state
/// in shape and of one whose count is wrong.
fn row_lengths(edge: Edge) {
    let [mut state, mut row] = [STATE, 4 * ROW].map(|most| Room::new(most, edge));
    let mut busy = State::fresh();
    busy.slots[0] = Slot {
        id: 0xffff,
        phase: Phase::Running,
        ..Slot::FREE
    };
    busy.slots[REQUESTS - 1] = Slot {
        id: 0x0201,
        phase: Phase::Draining,
        data: true,
        length: 0,
    };
    for count in [2, 1, 3] {
        busy.count = count;
        state.put(&bytes::write(&busy));
        for length in 0..=4 * ROW {
            let mut wanted = vec![9; length];
            let number = lamp::fill(&busy, &mut wanted);
            let lent = row.put(&vec![9; length]);
            assert_eq!(row_bytes(state.lent(STATE), lent), number.into());
            assert_eq!(row.lent(length), wanted, "a row of {length} bytes");
        }
        let told = active_bytes(state.lent(STATE));
        assert_eq!(told.is_ok(), count == 2);
        assert_eq!(state.lent(STATE), bytes::write(&busy));
    }
}

/// Boards of other lengths than a board has: 3, and nothing is changed.
fn other_boards(edge: Edge) {
    let [mut board, mut command] = [2 * BOARD, 10].map(|most| Room::new(most, edge));
    for length in [0, 1, 2, 18, BOARD - 1, BOARD + 1, 2 * BOARD] {
        let bytes = vec![1; length];
        let off = command.put(b"\xa1\x44name\x43off");
        assert_eq!(apply_bytes(board.put(&bytes), off), 3);
        assert_eq!(first_board_bytes(board.lend(length)), 3);
        assert_eq!(switch_bytes(board.lent(length), 0), Err(3));
        assert_eq!(label_bytes(board.lent(length), 0), Err(3));
        assert_eq!(board.lent(length), bytes);
    }
}

/// The number and the count of a request whose data is not there: its pointer
/// is to a page that may not be touched, or right behind one.
fn send_unread(edge: Edge, with_data: bool, length: usize, output: &mut [u8]) -> (u32, usize) {
    let data = Room::new(1, edge).lend(0).as_ptr();
    let mut written = 9;
    // Each other pointer comes with its own length, and the data is not read.
    let number = unsafe {
        raw::hgrpc_send(
            b"set".as_ptr(),
            3,
            b"".as_ptr(),
            0,
            0,
            1,
            1,
            true,
            true,
            1,
            with_data,
            data,
            length,
            output.as_mut_ptr(),
            output.len(),
            &mut written,
        )
    };
    (number, written)
}

/// Data is read only where the request is accepted with it. The second length
/// makes 2^64 + 2 bytes of frames, which a sum of 64 bits takes for 2: the output
/// has room for those.
fn unread_data(edge: Edge) {
    let mut output = [0xa5; 9 * 16 + 9];
    for length in [2, usize::MAX / 9 + 1, usize::MAX] {
        let answer = send_unread(edge, true, length, &mut output);
        assert_eq!(answer, (54, 0), "data of {length} bytes");
        assert_eq!(output, [0xa5; 9 * 16 + 9]);
    }
    assert_eq!(send_unread(edge, false, 5, &mut output), (0, 9 * 16));
    assert_eq!(output[9 * 16..], [0xa5; 9]);
}

/// Room for a number or a struct, against an edge, with a value in it. No bytes of it are others', and it is where its kind
/// may be: its size is a multiple of eight.
fn put<T>(edge: Edge, value: T) -> *mut T {
    let size = std::mem::size_of::<T>();
    let place: *mut T = Room::new(size, edge).lend(size).as_mut_ptr().cast();
    assert!(place.is_aligned());
    // The room is as long as the value, and stays.
    unsafe { place.write(value) };
    place
}

const LOG: &[u8] = b"\x02\0\0\0\x01\0hi";
const OTHER_LOG: &[u8] = b"\x02\0\0\0\x01\0ho\0\0\0\0\x07\x07";

/// The calls on lent logs, with the place and the entry against an edge too.
fn compared_logs(edge: Edge) {
    let [mut first, mut second] = [LOG, OTHER_LOG].map(|log| Room::new(log.len(), edge));
    let (first, second) = (first.put(LOG), second.put(OTHER_LOG));
    let (place, at) = (put(edge, 9), put(edge, LogPlace::START));
    let entry = put(edge, LogEntry::default());
    let (one, other) = (first.as_ptr(), second.as_ptr());
    // Each pointer is to a value, or comes with its own length.
    unsafe {
        let broken = raw::hgrpc_logs_broken(one, first.len(), other, second.len(), place);
        assert_eq!((broken, *place), (0, 0));
        for wanted in [(3, 1, 2, 2), (2, 2, 0, 0), (0, 0, 0, 0)] {
            let logs = raw::hgrpc_logs_next(one, first.len(), other, second.len(), at, entry);
            let LogEntry {
                number,
                first,
                second,
            } = *entry;
            assert_eq!((logs, number, first, second), wanted);
        }
    }
}

/// The calls on pieces, with the states, the entry and the counts against an edge too.
fn stepped_logs(edge: Edge) {
    let mut rooms = [LOG, OTHER_LOG].map(|log| Room::new(log.len(), edge));
    let state = put(edge, raw::Comparing::default());
    let scanning = put(edge, raw::Scanning::default());
    let entry = put(edge, LogEntry::default());
    let counts = [put(edge, 0), put(edge, 0)];
    let mut rests = [LOG, OTHER_LOG];
    let mut told = Vec::new();
    while rests.iter().any(|rest| !rest.is_empty()) {
        let [one, other] = &mut rooms;
        let pieces = [one.put(rests[0]), other.put(rests[1])];
        // Each pointer is to a value, or comes with its own length.
        unsafe {
            let [first, second] = pieces.map(|piece| (piece.as_ptr(), piece.len()));
            let logs = raw::hgrpc_compare(
                state, first.0, first.1, true, second.0, second.1, true, counts[0], counts[1],
                entry,
            );
            told.extend(Some((logs, *entry)).filter(|_| logs != 0));
            rests = [&rests[0][*counts[0]..], &rests[1][*counts[1]..]];
        }
    }
    let told: Vec<(u32, u64)> = told
        .iter()
        .map(|(logs, entry)| (*logs, entry.number))
        .collect();
    assert_eq!(told, [(3, 1), (2, 2)]);
    let lent = rooms[1].put(OTHER_LOG);
    // As above.
    unsafe {
        assert!(raw::hgrpc_compared(state));
        raw::hgrpc_scan(scanning, lent.as_ptr(), lent.len());
        assert_eq!(((*scanning).start, (*scanning).place), (14, 14));
    }
}

fn fail(reason: &str) -> ! {
    println!("guard: {reason}");
    exit(1)
}

fn main() {
    let arguments: Vec<String> = std::env::args().skip(1).collect();
    let words: Vec<&str> = arguments.iter().map(String::as_str).collect();
    let number = |word: &str| word.parse().expect("a number");
    match words[..] {
        ["run", seed, sessions, commands, sends, boards, logs, pairs] => {
            run([seed, sessions, commands, sends, boards, logs, pairs].map(number))
        }
        ["over"] => over::each(),
        ["lend", buffer] => over::lend(buffer),
        _ => fail("run SEED SESSIONS COMMANDS SENDS BOARDS LOGS PAIRS, over or lend BUFFER"),
    }
}
