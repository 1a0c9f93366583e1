//! The calls of bindings/hgrpc.rs as a program makes them, with the answers of
//! the papers. The file is taken in as a module.

#[path = "../bindings/hgrpc.rs"]
mod hgrpc;

use hgrpc::{convert, records, send, whole, Converted};
use hgrpc::{differences, Broken, Comparing, LogEntry, Scanning, Step};
use hgrpc::{Board, Entry, Fed, Kind, Phase, Record, Request, Sent, State};
use hgrpc::{BOARD, COILS, COMMAND_LONGEST, FRAME_HEAD, OUTPUT, PAYLOAD_LONGEST, RECORD_HEAD};
use hgrpc::{REQUESTS, ROW, SEND_SIZE_LONGEST, STATE, WORK};

const COMMAND: &[u8] = b"\xa2\x44name\x43set\x44args\xa0";
const WITH_ARGUMENTS: &[u8] =
    b"\xa2\x44name\x43set\x44args\xa3\x41a\x20\x41b\x41x\x41c\x3b\x80\0\0\0\0\0\0\0";

fn frame(id: u8, stream_flags: u8, last: u8, payload: &[u8]) -> Vec<u8> {
    let [low, middle, high, _] = (payload.len() as u32).to_le_bytes();
    let header = [low, middle, high, id, 0, 1, stream_flags, last];
    [&header[..], payload].concat()
}

fn fed(number: u32, taken: usize, written: usize) -> Fed {
    Fed {
        number,
        taken,
        written,
    }
}

/// T1 in pieces of a size.
fn first_trace(piece: usize) {
    let mut work = vec![0; WORK];
    let mut out = vec![0; OUTPUT];
    let mut state = State::fresh();
    let mut written = 0;
    for piece in frame(1, 1, 0x11, COMMAND).chunks(piece) {
        let answer = state.feed(&mut work, piece, &mut out);
        assert_eq!((answer.number, answer.taken), (0, piece.len()));
        written += answer.written;
    }
    let record = Record {
        kind: Kind::Command,
        request: 1,
        bit: false,
        loose: false,
        bytes: COMMAND,
    };
    assert!(record.runs());
    assert!(records(&out[..written]).eq([record]));
    assert_eq!((state.finish(1), state.finish(1)), (0, 4));
}

/// Two commands with output for one record, then data, then a refusal.
fn stop_and_refusal() {
    let mut work = vec![0; WORK];
    let mut out = vec![0; OUTPUT];
    let mut state = State::fresh();
    let input = [frame(1, 1, 0x11, COMMAND), frame(3, 0, 0x19, COMMAND)].concat();
    let stop = state.feed(&mut work, &input, &mut out);
    let one = RECORD_HEAD + COMMAND.len();
    assert_eq!(stop, fed(5, input.len() - 1, one));
    let rest = state.feed(&mut work, &input[stop.taken..], &mut out);
    assert_eq!(rest, fed(0, 1, one));
    let record = records(&out[..one]).next().expect("a record");
    assert_eq!(
        (record.request, record.bit, record.runs()),
        (3, true, false)
    );
    let data = frame(3, 0, 0x22, b"hi");
    assert_eq!(state.feed(&mut work, &data, &mut out), fed(0, 10, 11));
    let record = records(&out[..11]).next().expect("a record");
    assert_eq!((record.kind, record.bytes), (Kind::Data, &b"hi"[..]));
    assert!(record.runs());
    assert_eq!(state.feed(&mut work, &data, &mut out), fed(27, 10, 0));
    let dead = state.clone();
    assert_eq!(state.feed(&mut work, &data, &mut out), fed(27, 0, 0));
    assert_eq!((state.finish(3), state == dead), (27, true));
}

fn refused_calls() {
    let mut out = vec![0; OUTPUT];
    let mut state = State::fresh();
    assert_eq!(state.bytes().len(), STATE);
    assert_eq!(state.feed(&mut [], b"", &mut []), fed(2, 0, 0));
    let mut work = vec![0; WORK];
    assert_eq!(state.feed(&mut work, b"", &mut []), fed(1, 0, 0));
    let mut short = vec![0; STATE - 1];
    assert_eq!(hgrpc::fresh_bytes(&mut short), 3);
    assert_eq!(hgrpc::finish_bytes(&mut short, 1), 3);
    let answer = hgrpc::feed_bytes(&mut short, &mut work, b"", &mut out);
    assert_eq!(answer, fed(3, 0, 0));
}

/// So many requests are active, and the row has these entries first, then free ones.
fn shows(state: &State, count: usize, first: &[(u16, Phase)]) {
    assert_eq!(state.active(), count);
    let mut row = [(0, Phase::Free); REQUESTS];
    row[..first.len()].copy_from_slice(first);
    assert_eq!(state.row(), row.map(|(id, phase)| Entry { id, phase }));
}

/// The count and the row after each call, refused ones too.
fn lamp() {
    use Phase::{Collecting, Free, Running, Waiting};
    let mut work = vec![0; WORK];
    let mut out = vec![0; OUTPUT];
    let mut state = State::fresh();
    let mut feed = |state: &mut State, frame: &[u8]| state.feed(&mut work, frame, &mut out).number;
    shows(&state, 0, &[]);
    assert_eq!(feed(&mut state, &frame(1, 1, 0x15, b"\xa2")), 0);
    shows(&state, 1, &[(1, Collecting)]);
    assert_eq!(feed(&mut state, &frame(1, 0, 0x12, &COMMAND[1..])), 0);
    let mut wide = frame(3, 0, 0x19, COMMAND);
    wide[4] = 0xff;
    assert_eq!(feed(&mut state, &wide), 0);
    shows(&state, 2, &[(1, Running), (0xff03, Waiting)]);
    assert_eq!((state.finish(3), state.finish(1)), (4, 0));
    shows(&state, 1, &[(0, Free), (0xff03, Waiting)]);
    assert_eq!(feed(&mut state, &frame(1, 0, 0x12, COMMAND)), 21);
    assert_eq!(state.finish(1), 21);
    shows(&state, 1, &[(0, Free), (0xff03, Waiting)]);
}

/// A request is finished before its data has come, and another with its data frame under
/// way: no record comes of either, and the last data frame frees the slot.
fn drains() {
    use Phase::{Draining, Free, Running};
    let mut work = vec![0; WORK];
    let mut out = vec![0; OUTPUT];
    let mut state = State::fresh();
    let mut feed = |state: &mut State, bytes: &[u8]| state.feed(&mut work, bytes, &mut out);
    for (id, begin) in [(1, 1), (3, 0)] {
        let answer = feed(&mut state, &frame(id, begin, 0x19, COMMAND));
        assert_eq!(answer, fed(0, 24, 25));
    }
    assert_eq!((state.finish(1), state.finish(1)), (0, 4));
    let data = frame(3, 0, 0x22, b"hi");
    assert_eq!(feed(&mut state, &data[..9]), fed(0, 9, 0));
    assert_eq!((state.finish(3), state.finish(3)), (0, 4));
    shows(&state, 2, &[(1, Draining), (3, Draining)]);
    assert_eq!(feed(&mut state, &data[9..]), fed(0, 1, 0));
    shows(&state, 1, &[(1, Draining)]);
    let more = frame(1, 0, 0x21, b"more");
    assert_eq!(feed(&mut state, &more), fed(0, more.len(), 0));
    shows(&state, 1, &[(1, Draining)]);
    let command = frame(3, 0, 0x11, COMMAND);
    assert_eq!(feed(&mut state, &command), fed(0, 24, 25));
    shows(&state, 2, &[(1, Draining), (3, Running)]);
    assert_eq!(feed(&mut state, &frame(1, 0, 0x22, b"")), fed(0, 8, 0));
    shows(&state, 1, &[(0, Free), (3, Running)]);
    assert_eq!(feed(&mut state, &frame(1, 0, 0x22, b"")), fed(27, 8, 0));
    shows(&state, 1, &[(0, Free), (3, Running)]);
}

/// Rows of a busy channel by their length, and by every wrong count.
fn rows() {
    let mut work = vec![0; WORK];
    let mut state = State::fresh();
    state.feed(&mut work, &frame(1, 1, 0x15, COMMAND), &mut vec![0; OUTPUT]);
    let entries = [&[1, 0, 1][..], &[0; ROW - 3]].concat();
    for length in 0..=2 * ROW {
        let mut row = vec![0xa5; length];
        let number = hgrpc::row_bytes(state.bytes(), &mut row);
        let filled = if length < ROW { 0 } else { ROW };
        assert_eq!(number, if filled == 0 { 9 } else { 0 });
        assert_eq!(row[..filled], entries[..filled]);
        assert!(row[filled..].iter().all(|byte| *byte == 0xa5));
    }
    for count in (0..=255).filter(|count| *count != 1) {
        let mut bytes = state.bytes().to_vec();
        bytes[STATE - 1] = count;
        let mut row = [0xa5; ROW];
        assert_eq!(hgrpc::active_bytes(&bytes), Err(3));
        assert_eq!(hgrpc::row_bytes(&bytes, &mut row), 3);
        assert_eq!(hgrpc::row_bytes(&bytes, &mut row[1..]), 3);
        assert_eq!(row, [0xa5; ROW]);
        assert_eq!(hgrpc::finish_bytes(&mut bytes, 1), 3);
    }
    assert_eq!(hgrpc::active_bytes(&state.bytes()[1..]), Err(3));
    assert_eq!(hgrpc::active_bytes(state.bytes()), Ok(1));
}

/// Two records, cut at every place: only whole ones are read.
fn cut_records() {
    let one = [b"\x13\0\0\0\x01\0\x01\0\0", COMMAND].concat();
    let two = [&one[..], &one].concat();
    for count in 0..=two.len() {
        assert_eq!(records(&two[..count]).count(), count / one.len());
    }
    assert_eq!(records(b"\x03\0\0\0\x07\0\x01\0\0").count(), 0);
    assert_eq!(records(b"\x02\0\0\0\x01\0\x01\0\0").count(), 0);
}

/// The longest data frame, and one that claims a byte more. The record fills an output of
/// the least length.
fn longest_frame() {
    let mut work = vec![0; WORK];
    let mut out = vec![0; OUTPUT];
    let mut state = State::fresh();
    let data: Vec<u8> = (0..PAYLOAD_LONGEST).map(|i| (i ^ i >> 8) as u8).collect();
    state.feed(&mut work, &frame(1, 1, 0x19, COMMAND), &mut out);
    let longest = frame(1, 0, 0x22, &data);
    let answer = state.feed(&mut work, &longest, &mut out[1..]);
    assert_eq!(answer, fed(1, 0, 0));
    let answer = state.feed(&mut work, &longest, &mut out);
    assert_eq!(answer, fed(0, longest.len(), OUTPUT));
    let record = records(&out).next().expect("a record");
    assert_eq!((record.kind, record.request), (Kind::Data, 1));
    assert!(record.bytes == data && record.runs());
    assert_eq!(records(&out[..OUTPUT - 1]).count(), 0);
    let over = frame(1, 0, 0x22, &vec![0; PAYLOAD_LONGEST + 1]);
    let answer = state.feed(&mut work, &over, &mut out);
    assert_eq!(answer, fed(11, FRAME_HEAD, 0));
}

fn lookups() {
    assert_eq!(hgrpc::check(COMMAND), 0);
    for (bytes, number) in [
        (&b""[..], 24),
        (b"\xa0", 25),
        (b"\xa2\x44name\x41a\x44name\x41a", 26),
    ] {
        assert_eq!(hgrpc::check(bytes), number);
        assert_eq!(hgrpc::name(bytes), Err(number));
        assert_eq!(hgrpc::argument(bytes, b"a"), Err(number));
        assert_eq!(hgrpc::integer(bytes, b"a"), Err(number));
        assert_eq!(hgrpc::argument_count(bytes), 0);
    }
    assert_eq!(hgrpc::argument_count(COMMAND), 0);
    assert_eq!(hgrpc::argument_count(WITH_ARGUMENTS), 3);
    assert_eq!(hgrpc::name(WITH_ARGUMENTS), Ok(&b"set"[..]));
    assert_eq!(hgrpc::argument(WITH_ARGUMENTS, b"b"), Ok(&b"\x41x"[..]));
    assert_eq!(hgrpc::argument(WITH_ARGUMENTS, b""), Err(6));
    assert_eq!(hgrpc::integer(WITH_ARGUMENTS, b"a"), Ok(-1));
    for (key, number) in [(b"d", 6), (b"b", 7), (b"c", 8)] {
        assert_eq!(hgrpc::integer(WITH_ARGUMENTS, key), Err(number));
    }
}

/// T1's command in other heads.
const LOOSE: &[u8] = b"\xb8\x02\x44name\x43set\x44args\xa0";

fn marks() {
    let with = |item: &[u8]| hgrpc::loose(&[&COMMAND[..15], b"\xa1\x41k", item].concat());
    assert!(!hgrpc::loose(COMMAND));
    assert!(hgrpc::loose(LOOSE));
    assert!(with(b"\x18\x17") && !with(b"\x18\x18") && !with(b"\x42\x18\x17"));
    assert!(with(b"\xda\0\0\x01\x02\x80") && !with(b"\xd9\x01\x02\x80"));
    assert!(!hgrpc::loose(b""));
    assert!(!hgrpc::loose(&[LOOSE, b"\0"].concat()));
}

/// A command, shortest or loose, without data and with data.
fn marked_records() {
    let mut work = vec![0; WORK];
    let mut out = vec![0; OUTPUT];
    for (third, last, bytes) in [
        (0, 0x11, COMMAND),
        (1, 0x19, COMMAND),
        (2, 0x11, LOOSE),
        (3, 0x19, LOOSE),
    ] {
        let mut state = State::fresh();
        let input = frame(1, 1, last, bytes);
        let answer = state.feed(&mut work, &input, &mut out);
        assert_eq!(answer, fed(0, input.len(), RECORD_HEAD + bytes.len()));
        assert_eq!(out[8], third);
        let record = Record {
            kind: Kind::Command,
            request: 1,
            bit: last == 0x19,
            loose: bytes == LOOSE,
            bytes,
        };
        assert!(records(&out[..answer.written]).eq([record]));
        assert_eq!(record.runs(), last == 0x11);
        assert_eq!(state.finish(1), 0);
        assert_eq!(state.active(), usize::from(!record.runs()));
    }
}

/// A command with two arguments.
fn two(name: &[u8], first: &[u8], second: &[u8]) -> Vec<u8> {
    [b"\xa2\x44name", name, b"\x44args\xa2", first, second].concat()
}

/// Switches and labels, what each leaves of the rest, and that a refused command
/// leaves all.
fn coils() {
    let mut board = Board::first();
    assert_eq!(board.bytes(), [0; BOARD]);
    assert_eq!(
        board.apply(&two(b"\x43set", b"\x42on\xf5", b"\x44coil\x03")),
        0
    );
    let label = two(b"\x45label", b"\x44coil\x0f", b"\x44text\x45north");
    assert_eq!(board.apply(&label), 0);
    assert_eq!(board.switch(3), Ok(true));
    assert_eq!(board.label(3), Ok(&b""[..]));
    assert_eq!(board.switch(15), Ok(false));
    assert_eq!(board.label(15), Ok(&b"north"[..]));
    assert_eq!(board.switch(COILS), Err(42));
    assert_eq!(board.label(usize::MAX), Err(42));
    let before = board.clone();
    let long = b"\x44text\x51seventeen bytes, ";
    for (command, number) in [
        (vec![], 24),
        (b"\xa1\x44args\xa0".to_vec(), 25),
        (two(b"\x43set", b"\x42on\xf5", b"\x42on\xf5"), 26),
        (two(b"\x41x", b"\x44coil\x10", b"\x42on\xf5"), 40),
        (two(b"\x43set", b"\x44coil\x10", b"\x42on\xf6"), 41),
        (two(b"\x45label", b"\x44coil\x10", long), 42),
        (two(b"\x45label", b"\x44coil\x0f", long), 43),
    ] {
        assert_eq!(board.apply(&command), number);
        assert_eq!(board, before);
    }
    assert_eq!(board.apply(b"\xa1\x44name\x43off"), 0);
    assert_eq!(board.switch(3), Ok(false));
    assert_eq!(board.label(15), Ok(&b"north"[..]));
}

/// Bytes that are no board.
fn no_board() {
    let mut bytes = [2; BOARD];
    assert_eq!(hgrpc::apply_bytes(&mut bytes, b""), 3);
    assert_eq!(hgrpc::switch_bytes(&bytes, COILS), Err(3));
    assert_eq!(hgrpc::label_bytes(&bytes, COILS), Err(3));
    assert_eq!(hgrpc::first_board_bytes(&mut bytes[1..]), 3);
    assert_eq!(bytes, [2; BOARD]);
    assert_eq!(hgrpc::first_board_bytes(&mut bytes), 0);
    assert_eq!(bytes, [0; BOARD]);
}

/// A request without arguments or data.
const REQUEST: Request = Request {
    id: 1,
    stream: 1,
    begin: true,
    end: false,
    size: SEND_SIZE_LONGEST,
    name: b"set",
    pairs: b"",
    count: 0,
    data: None,
};

/// What is sent into an output of a length, all else of which stays.
fn sent(request: &Request, length: usize) -> Result<Vec<u8>, u32> {
    let mut out = vec![0xa5; length];
    let Sent { number, written } = send(request, &mut out);
    assert!(out[written..].iter().all(|byte| *byte == 0xa5));
    out.truncate(written);
    match number {
        0 => Ok(out),
        _ => {
            assert_eq!(written, 0);
            Err(number)
        }
    }
}

fn sends() {
    let first = frame(1, 1, 0x11, COMMAND);
    assert_eq!(sent(&REQUEST, 24), Ok(first.clone()));
    assert_eq!(sent(&REQUEST, 99), Ok(first));
    assert_eq!(sent(&REQUEST, 23), Err(54));
    let cut = Request {
        size: 8,
        end: true,
        data: Some(b"ninebytes"),
        ..REQUEST
    };
    let frames = [
        frame(1, 1, 0x1d, &COMMAND[..8]),
        frame(1, 0, 0x1a, &COMMAND[8..]),
        frame(1, 0, 0x21, b"ninebyte"),
        frame(1, 2, 0x22, b"s"),
    ];
    assert_eq!(sent(&cut, 57), Ok(frames.concat()));
    let empty = Request {
        data: Some(b""),
        ..REQUEST
    };
    let frames = [frame(1, 1, 0x19, COMMAND), frame(1, 0, 0x22, b"")];
    assert_eq!(sent(&empty, 32), Ok(frames.concat()));
}

/// Each request has a reason for its number and for those above it.
fn refused_requests() {
    let pairs = [&b"\x41k\x59\x08\0"[..], &[7; COMMAND_LONGEST]].concat();
    let all = Request {
        id: 2,
        size: 0,
        name: b"",
        pairs: &pairs,
        ..REQUEST
    };
    let stream = Request {
        id: 1,
        stream: 2,
        ..all
    };
    let small = Request { id: 1, ..all };
    let large = Request {
        size: SEND_SIZE_LONGEST + 1,
        ..small
    };
    let nameless = Request { size: 1, ..small };
    let counted = Request {
        name: b"set",
        count: u64::MAX,
        ..nameless
    };
    let long = Request {
        count: 1,
        ..counted
    };
    let answers = [all, stream, small, large, nameless, counted, long, REQUEST];
    let answers = answers.map(|request| sent(&request, 5));
    assert_eq!(answers, [50, 50, 51, 51, 52, 52, 53, 54].map(Err));
}

/// The longest command, with data: `most` is just enough.
fn most() {
    let pairs = [&b"\x41k\x59\x07\xeb"[..], &[7; 2027]].concat();
    let longest = COMMAND_LONGEST;
    for size in [1, 2, 7, 100, longest - 1, longest, SEND_SIZE_LONGEST] {
        let request = Request {
            pairs: &pairs,
            count: 1,
            size,
            data: Some(&pairs[..200]),
            ..REQUEST
        };
        let most = request.most().expect("it can be counted");
        assert_eq!(sent(&request, most).map(|out| out.len()), Ok(most));
        assert_eq!(sent(&request, most - 1), Err(54));
    }
    assert_eq!(REQUEST.most(), Some(longest + FRAME_HEAD));
    assert_eq!(Request { size: 0, ..REQUEST }.most(), None);
}

/// T1's and T3's records as they were stored, and one without a body.
const OLD_LOG: &[u8] =
    b"\x13\0\x01\0\x01\0\0\xa2\x44name\x43set\x44args\xa0\x05\0\x02\0\x01\0\x01hi\0\0\xff\xfe";
const NEW_LOG: &[u8] = b"\x13\0\0\0\x01\0\x01\0\0\xa2\x44name\x43set\x44args\xa0\
    \x05\0\0\0\x02\0\x01\0\x01hi\0\0\0\0\xff\xfe";

/// What is converted into an output of a length, all else of which stays.
fn converted(log: &[u8], length: usize) -> Result<Vec<u8>, u32> {
    let mut out = vec![0xa5; length];
    let Converted { number, written } = convert(log, &mut out);
    assert!(out[written..].iter().all(|byte| *byte == 0xa5));
    out.truncate(written);
    match number {
        0 => Ok(out),
        _ => {
            assert_eq!(written, 0);
            Err(number)
        }
    }
}

/// Three records, cut at every place.
fn logs() {
    let ends = [0, 23, 32, OLD_LOG.len()];
    for count in 0..=OLD_LOG.len() {
        let log = &OLD_LOG[..count];
        let last = ends.iter().filter(|end| **end <= count).count() - 1;
        assert_eq!(whole(log), ends[last]);
        let most = hgrpc::convert_most(count).expect("it can be counted");
        let total = count + 2 * last;
        if count == ends[last] {
            let new = NEW_LOG[..total].to_vec();
            assert_eq!(converted(log, total), Ok(new.clone()));
            assert_eq!(converted(log, most), Ok(new));
        } else {
            assert_eq!(converted(log, most), Err(70));
            assert_eq!(converted(log, 0), Err(70));
        }
        if total > 0 && count == ends[last] {
            assert_eq!(converted(log, total - 1), Err(71));
        }
    }
    assert_eq!(hgrpc::convert_most(3), Some(3));
    assert_eq!(hgrpc::convert_most(4), Some(6));
    assert_eq!(hgrpc::convert_most(usize::MAX), None);
}

/// The longest body that two bytes can tell.
fn longest_log() {
    let body = vec![7; u16::MAX.into()];
    let log = [&b"\xff\xff\x02\0"[..], &body].concat();
    let new = [&b"\xff\xff\0\0\x02\0"[..], &body].concat();
    assert!(converted(&log, new.len()) == Ok(new));
    assert_eq!((whole(&log), whole(&log[..log.len() - 1])), (log.len(), 0));
    assert_eq!(converted(&log[1..], 0), Err(70));
}

/// Records that differ in the last byte of a body and in a kind, and a record more.
const GOOD_LOG: &[u8] = b"\0\0\0\0\x01\0\x02\0\0\0\x02\0hi\0\0\0\0\xff\xfe";
const BAD_LOG: &[u8] = b"\0\0\0\0\x01\0\x02\0\0\0\x02\0ho\0\0\0\0\xff\xff\x01\0\0\0\x01\0x";
const GOOD_ENDS: [usize; 4] = [0, 6, 14, GOOD_LOG.len()];
const ENTRIES: [LogEntry; 3] = [
    LogEntry {
        number: 2,
        first: Some(2),
        second: Some(2),
    },
    LogEntry {
        number: 3,
        first: Some(0),
        second: Some(0),
    },
    LogEntry {
        number: 4,
        first: None,
        second: Some(1),
    },
];

/// The entries of two logs, or which one is broken and where.
fn compared(first: &[u8], second: &[u8]) -> Result<Vec<LogEntry>, (u32, u64)> {
    let entries = differences(first, second).map(Iterator::collect);
    entries.map_err(|Broken { log, place }| (log, place))
}

/// Two logs, each as the first and as the second, equal ones, and one that is cut at every place.
fn compared_logs() {
    assert_eq!(compared(GOOD_LOG, BAD_LOG), Ok(ENTRIES.to_vec()));
    let turned = ENTRIES.map(|entry| LogEntry {
        first: entry.second,
        second: entry.first,
        ..entry
    });
    assert_eq!(compared(BAD_LOG, GOOD_LOG), Ok(turned.to_vec()));
    assert_eq!(compared(BAD_LOG, BAD_LOG), Ok(vec![]));
    assert_eq!(compared(b"", b""), Ok(vec![]));
    for count in 0..=GOOD_LOG.len() {
        let log = &GOOD_LOG[..count];
        let last = GOOD_ENDS.into_iter().filter(|end| *end <= count).max();
        let place = last.expect("0 is the first") as u64;
        let mut scanning = Scanning::new();
        log.iter().for_each(|byte| scanning.take(&[*byte]));
        if place == count as u64 {
            assert_eq!(compared(log, log), Ok(vec![]));
            assert_eq!(scanning.broken(), None);
        } else {
            assert_eq!(compared(log, b"\0"), Err((1, place)));
            assert_eq!(compared(b"", log), Err((2, place)));
            assert_eq!(scanning.broken(), Some(place));
        }
    }
}

/// The same two logs in pieces of these sizes.
fn in_steps(sizes: [usize; 2]) {
    let mut comparing = Comparing::new();
    let (mut first, mut second) = (GOOD_LOG, BAD_LOG);
    let mut entries = Vec::new();
    while !first.is_empty() || !second.is_empty() {
        let counts = [first.len().min(sizes[0]), second.len().min(sizes[1])];
        let lasts = [counts[0] == first.len(), counts[1] == second.len()];
        let Step {
            entry,
            first_taken,
            second_taken,
        } = comparing.step(
            &first[..counts[0]],
            lasts[0],
            &second[..counts[1]],
            lasts[1],
        );
        assert!(first_taken + second_taken > 0);
        first = &first[first_taken..];
        second = &second[second_taken..];
        entries.extend(entry);
    }
    assert_eq!(entries, ENTRIES);
    assert!(comparing.is_end());
}

/// The steps in pieces of every size, and a record that is under way.
fn stepped_logs() {
    for one in 1..=GOOD_LOG.len() + 1 {
        for other in 1..=BAD_LOG.len() + 1 {
            in_steps([one, other]);
        }
    }
    let mut comparing = Comparing::new();
    assert!(comparing.is_end());
    let step = comparing.step(b"", false, &BAD_LOG[..3], false);
    let wanted = Step {
        entry: None,
        first_taken: 0,
        second_taken: 3,
    };
    assert_eq!(step, wanted);
    assert!(!comparing.is_end());
}

fn main() {
    for piece in [1, 3, 9, 24] {
        first_trace(piece);
    }
    stop_and_refusal();
    refused_calls();
    lamp();
    drains();
    rows();
    cut_records();
    longest_frame();
    lookups();
    marks();
    marked_records();
    coils();
    no_board();
    sends();
    refused_requests();
    most();
    logs();
    longest_log();
    compared_logs();
    stepped_logs();
    println!("calls (Rust): each answer as the rules have it");
}
