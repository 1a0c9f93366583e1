//! Calls that need the last byte of each buffer. Where that byte is not there,
//! since the length lent is one too many, the page behind is touched.

use crate::met::LONGEST_LOG;
use hgrpc::{raw, BOARD, OUTPUT, REQUESTS, ROW, STATE, WORK};
use hgrpc::{FRAME_HEAD, RECORD_HEAD, SEND_SIZE_LONGEST};
use replay_lines::{Edge, Room};
use second::bytes;
use second::replay::{state_text, to_hex};
use second::state::{Phase, Slot, State};
use std::os::unix::process::ExitStatusExt;
use std::process::Command;

/// The signal for a page that may not be touched.
const TOUCHED: i32 = 11;

const ID: u16 = 15;

/// Six requests run and one drains, so that the next one takes the last slot, whose
/// part is at the end of the work area. Stream 1 is open.
fn start() -> State {
    let mut state = State::fresh();
    for (slot, id) in state.slots.iter_mut().zip((1..ID).step_by(2)) {
        *slot = Slot {
            id,
            phase: Phase::Running,
            ..Slot::FREE
        };
    }
    state.slots[6].phase = Phase::Draining;
    state.slots[6].data = true;
    state.open.insert(1);
    state.count = 7;
    state
}

/// The longest command: its one argument, `k`, fills it up.
fn longest_command() -> Vec<u8> {
    let head = b"\xa2\x44name\x43set\x44args\xa1\x41k\x59";
    let count = hgrpc::COMMAND_LONGEST - head.len() - 2;
    let mut command = head.to_vec();
    command.extend((count as u16).to_be_bytes());
    command.resize(hgrpc::COMMAND_LONGEST, 7);
    command
}

fn frame(last: u8, payload: &[u8]) -> Vec<u8> {
    let length = payload.len() as u32;
    let mut frame = length.to_le_bytes()[..3].to_vec();
    frame.extend(ID.to_le_bytes());
    frame.extend([1, 0, last]);
    frame.extend(payload);
    frame
}

/// The command, which fills the work area's last byte, and a longest data
/// frame, whose record fills the output.
fn frames() -> [Vec<u8>; 2] {
    let data = [9; hgrpc::PAYLOAD_LONGEST];
    [frame(0x19, &longest_command()), frame(0x21, &data)]
}

/// The same calls as lines.
pub fn lines() -> Vec<String> {
    let command = to_hex(&longest_command());
    let mut lines = vec![
        format!("fresh {WORK}"),
        format!("set {}", state_text(&start())),
    ];
    lines.extend(frames().map(|frame| format!("feed {OUTPUT} {}", to_hex(&frame))));
    lines.extend(["state", "tail", "worksum", "active"].map(String::from));
    lines.push(format!("row {REQUESTS}"));
    lines.push(format!("arg {command} 6b"));
    lines.push(format!("name {command}"));
    let [name, pairs, data] = [NAME, PAIRS, &DATA].map(to_hex);
    let send = format!("send {TOTAL} {name} 1 {pairs} 1 1 1 1 {SEND_SIZE_LONGEST} {data}");
    lines.extend([send, "tail".to_string()]);
    let log = to_hex(&longest_log());
    let convert = format!("convert {} {log}", LONGEST_LOG + 2);
    lines.extend([convert, "tail".to_string(), format!("whole {log}")]);
    let record = to_hex(RECORD);
    lines.push(format!("compare {record} {record}"));
    lines.extend([format!("board {}", to_hex(LABEL)), "board".to_string()]);
    lines
}

/// A buffer before a page: its first bytes are there, all but the last where it
/// is the one that is lent with a byte too many.
struct Lent {
    room: Room,
    there: usize,
    length: usize,
}

impl Lent {
    fn new(name: &str, bytes: &[u8], over: &str) -> Lent {
        let length = bytes.len();
        let there = length - usize::from(name == over);
        let mut room = Room::new(length, Edge::Behind);
        room.put(&bytes[..there]);
        Lent {
            room,
            there,
            length,
        }
    }

    fn pointer(&mut self) -> *mut u8 {
        self.room.lend(self.there).as_mut_ptr()
    }
}

fn feeds(over: &str) {
    let mut state = Lent::new("state", &bytes::write(&start()), over);
    let mut work = Lent::new("work", &vec![0; WORK], over);
    for frame in frames() {
        let mut input = Lent::new("input", &frame, over);
        let mut output = Lent::new("output", &vec![0; OUTPUT], over);
        let (mut taken, mut written) = (0, 0);
        // Each pointer comes with its own length, or, in one of the four, with
        // one too many: the call then ends the program.
        let number = unsafe {
            raw::hgrpc_feed(
                state.pointer(),
                state.length,
                work.pointer(),
                work.length,
                input.pointer(),
                input.length,
                output.pointer(),
                output.length,
                &mut taken,
                &mut written,
            )
        };
        assert_eq!((number, taken), (0, frame.len()));
        assert_eq!(written, RECORD_HEAD + frame.len() - FRAME_HEAD);
    }
    assert_eq!(state.length, STATE);
}

/// The last byte of a state is the count, and that of a row the last slot's phase.
fn lamps(over: &str) {
    let start = bytes::write(&start());
    let mut counted = Lent::new("counted", &start, over);
    let mut told = Lent::new("told", &start, over);
    let mut row = Lent::new("row", &[9; ROW], over);
    let mut count = 0;
    // As above.
    let numbers = unsafe {
        [
            raw::hgrpc_active(counted.pointer(), counted.length, &mut count),
            raw::hgrpc_row(told.pointer(), told.length, row.pointer(), row.length),
        ]
    };
    assert_eq!((numbers, count), ([0, 0], 7));
    assert_eq!(row.room.lent(ROW)[ROW - 6..], [13, 0, 4, 0, 0, 0]);
}

/// The command's last byte is the head of its argument.
fn lookups(over: &str) {
    let bytes = b"\xa2\x44name\x43set\x44args\xa1\x41k\x05";
    let mut command = Lent::new("command", bytes, over);
    let mut key = Lent::new("key", b"k", over);
    let (mut at, mut size) = (0, 0);
    // As above.
    let number = unsafe {
        raw::hgrpc_argument(
            command.pointer(),
            command.length,
            key.pointer(),
            key.length,
            &mut at,
            &mut size,
        )
    };
    assert_eq!((number, at, size), (0, bytes.len() - 1, 1));
}

/// The command's last byte is the last of its one loose head.
fn marks(over: &str) {
    let bytes = b"\xa2\x44name\x43set\x44args\xa1\x41k\x19\0\xff";
    let mut marked = Lent::new("marked", bytes, over);
    // As above.
    let mark = unsafe { raw::hgrpc_loose(marked.pointer(), marked.length) };
    assert_eq!(mark, 1);
}

/// A request whose frames take as much output as there is: the command's, and
/// a longest data frame.
const NAME: &[u8] = b"set";
const PAIRS: &[u8] = b"\x41k\x05";
const DATA: [u8; SEND_SIZE_LONGEST] = [9; SEND_SIZE_LONGEST];
const TOTAL: usize = 2 * FRAME_HEAD + 16 + PAIRS.len() + DATA.len();

fn sends(over: &str) {
    let mut name = Lent::new("name", NAME, over);
    let mut pairs = Lent::new("pairs", PAIRS, over);
    let mut data = Lent::new("data", &DATA, over);
    let mut frames = Lent::new("frames", &[0; TOTAL], over);
    let mut written = 0;
    // As above.
    let number = unsafe {
        raw::hgrpc_send(
            name.pointer(),
            name.length,
            pairs.pointer(),
            pairs.length,
            1,
            1,
            1,
            true,
            true,
            SEND_SIZE_LONGEST,
            true,
            data.pointer(),
            data.length,
            frames.pointer(),
            frames.length,
            &mut written,
        )
    };
    assert_eq!((number, written), (0, TOTAL));
}

/// A stored log of one record with the longest body, whose last byte is the log's.
fn longest_log() -> Vec<u8> {
    [&[0xff, 0xff, 2, 0][..], &vec![9; LONGEST_LOG - 4]].concat()
}

/// The log's last byte is converted to the output's. To tell how much of a log is
/// whole, its lengths alone are needed: here all of a record is not there.
fn logs(over: &str) {
    let mut log = Lent::new("log", &longest_log(), over);
    let mut output = Lent::new("new log", &vec![0; LONGEST_LOG + 2], over);
    let mut whole = Lent::new("whole", &[0; 4], over);
    if over == "whole" {
        whole.there = 0;
    }
    let mut written = 0;
    // As above, and one with four bytes too many.
    let (number, count) = unsafe {
        (
            raw::hgrpc_convert(
                log.pointer(),
                log.length,
                output.pointer(),
                output.length,
                &mut written,
            ),
            raw::hgrpc_whole(whole.pointer(), whole.length),
        )
    };
    assert_eq!((number, written, count), (0, LONGEST_LOG + 2, 4));
}

/// Equal logs, whose last bytes are compared.
const RECORD: &[u8] = b"\x03\0\0\0\x02\0end";

/// To tell whether a log is broken, its lengths alone are needed: here all of a record is not there. So it is with a log
/// that is read through.
fn comparisons(over: &str) {
    let mut lent = ["one log", "other log"].map(|name| Lent::new(name, RECORD, over));
    let mut looked = ["one looked at", "other looked at", "scanned"].map(|name| {
        let mut lent = Lent::new(name, &[0; 6], over);
        if name == over {
            lent.there = 0;
        }
        lent
    });
    let (mut place, mut at) = (9, raw::LogPlace::START);
    let mut entry = raw::LogEntry::default();
    let mut scanning = raw::Scanning::default();
    let ([one, other], [first, second, scanned]) = (&mut lent, &mut looked);
    // As above.
    let numbers = unsafe {
        let (first_log, second_log) = (first.pointer(), second.pointer());
        raw::hgrpc_scan(&mut scanning, scanned.pointer(), scanned.length);
        [
            raw::hgrpc_logs_broken(
                first_log,
                first.length,
                second_log,
                second.length,
                &mut place,
            ),
            raw::hgrpc_logs_next(
                one.pointer(),
                one.length,
                other.pointer(),
                other.length,
                &mut at,
                &mut entry,
            ),
        ]
    };
    assert_eq!((numbers, place, at.number), ([0, 0], 0, 2));
    assert_eq!((scanning.start, scanning.place), (6, 6));
}

/// The same logs as two pieces: the heads are taken, and then the bodies.
fn steps(over: &str) {
    let mut one = Lent::new("one piece", RECORD, over);
    let mut other = Lent::new("other piece", RECORD, over);
    let mut state = raw::Comparing::default();
    let mut entry = raw::LogEntry::default();
    let (mut first, mut second, mut told) = (0, 0, 0);
    while first < RECORD.len() {
        let (mut first_taken, mut second_taken) = (0, 0);
        // As above.
        told += unsafe {
            raw::hgrpc_compare(
                &mut state,
                one.pointer().add(first),
                one.length - first,
                true,
                other.pointer().add(second),
                other.length - second,
                true,
                &mut first_taken,
                &mut second_taken,
                &mut entry,
            )
        };
        first += first_taken;
        second += second_taken;
    }
    assert_eq!((second, told), (RECORD.len(), 0));
}

/// A label that fills the places of the last coil, which end the board; the last
/// byte of the command is the label's.
const LABEL: &[u8] = b"\xa2\x44name\x45label\x44args\xa2\x44coil\x0f\x44text\x50sixteen bytes on";

fn boards(over: &str) {
    let mut board = Lent::new("board", &[0; BOARD], over);
    let mut command = Lent::new("applied", LABEL, over);
    let mut first = Lent::new("first", &[0; BOARD], over);
    // As above.
    let numbers = unsafe {
        [
            raw::hgrpc_board_apply(
                board.pointer(),
                board.length,
                command.pointer(),
                command.length,
            ),
            raw::hgrpc_board_first(first.pointer(), first.length),
        ]
    };
    assert_eq!(numbers, [0, 0]);
    assert_eq!(
        board.room.lent(BOARD)[BOARD - 16..],
        LABEL[LABEL.len() - 16..]
    );
}

/// Makes the calls with a byte too many of one buffer.
pub fn lend(over: &str) {
    feeds(over);
    lamps(over);
    lookups(over);
    marks(over);
    boards(over);
    sends(over);
    logs(over);
    comparisons(over);
    steps(over);
}

/// The buffers that the calls above are lent, and none of them.
const BUFFERS: [&str; 28] = [
    "none",
    "state",
    "work",
    "input",
    "output",
    "counted",
    "told",
    "row",
    "command",
    "key",
    "marked",
    "name",
    "pairs",
    "data",
    "frames",
    "board",
    "applied",
    "first",
    "log",
    "new log",
    "whole",
    "one looked at",
    "other looked at",
    "one log",
    "other log",
    "one piece",
    "other piece",
    "scanned",
];

/// Makes them with each buffer in turn, in a program of its own, which a touched
/// page must end; and with none, which must come to its end.
pub fn each() {
    for buffer in BUFFERS {
        let program = std::env::current_exe().expect("a program knows its place");
        let ended = Command::new(program).args(["lend", buffer]).status();
        let ended = ended.expect("the program starts");
        let wanted = Some(TOUCHED).filter(|_| buffer != "none");
        if ended.signal() != wanted || ended.success() != wanted.is_none() {
            crate::fail(&format!("one byte too many of {buffer}: {ended}"));
        }
    }
    println!("guard: one byte too many of any buffer ends the program");
}
