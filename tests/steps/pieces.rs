//! Logs that come in pieces: read through for a break, and compared.

use crate::{ends, fail, front};
use generate::Random;
use hgrpc::raw::{self, LogEntry};
use replay_lines::{Edge, Room};
use second::differences::{compare, Entry};
use second::log::{read, Log, NEW};

/// The most bytes of a log.
const LOG: usize = 300_000;

/// How long the pieces are.
pub enum Sizes<'r> {
    /// Each as long as the others of its log.
    Each([usize; 2]),
    /// Any from none to so many bytes.
    Any(&'r mut Random, usize),
}

impl Sizes<'_> {
    fn next(&mut self, log: usize) -> usize {
        match self {
            Sizes::Each(sizes) => sizes[log],
            Sizes::Any(random, most) => random.below(*most + 1),
        }
    }
}

/// The archive's calls. Pieces are lent against an edge.
pub struct Pieces {
    rooms: [Room; 2],
    pub steps: u64,
}

/// A comparison under way: the logs, how much of each is done with, and how much of each has come.
struct Turn<'l> {
    logs: [&'l [u8]; 2],
    state: raw::Comparing,
    taken: [usize; 2],
    come: [usize; 2],
    /// Whether the end of a log is told only behind its last piece.
    late: bool,
}

impl Turn<'_> {
    fn piece(&self, log: usize) -> &[u8] {
        &self.logs[log][self.taken[log]..self.come[log]]
    }

    /// Whether the piece is told to be the log's last.
    fn last(&self, log: usize) -> bool {
        let told = if self.late { self.taken } else { self.come };
        told[log] == self.logs[log].len()
    }

    fn at_hand(&self, log: usize) -> bool {
        self.last(log) || !self.piece(log).is_empty()
    }

    /// More comes. Where nothing was taken, as of a broken log, a piece gets ever longer.
    fn come(&mut self, sizes: &mut Sizes, took: bool) {
        for log in 0..2 {
            let rest = if took { 0 } else { 2 * self.piece(log).len() };
            let come = self.taken[log] + rest + sizes.next(log);
            self.come[log] = self.come[log].max(come.min(self.logs[log].len()));
        }
    }

    fn is_over(&self) -> bool {
        (0..2).all(|log| self.taken[log] == self.logs[log].len())
    }
}

impl Pieces {
    pub fn new(edge: Edge) -> Pieces {
        Pieces {
            rooms: [Room::new(LOG, edge), Room::new(LOG, edge)],
            steps: 0,
        }
    }

    /// Reads both logs through, and compares them, in pieces of these sizes.
    pub fn check(&mut self, logs: [&[u8]; 2], mut sizes: Sizes) {
        for (log, bytes) in logs.into_iter().enumerate() {
            self.scan(log, bytes, &mut sizes);
        }
        let lates: &[bool] = match compare(logs[0], logs[1]) {
            Ok(_) => &[false, true],
            Err(_) => &[false],
        };
        for late in lates {
            self.compare(logs, &mut sizes, *late);
        }
    }

    /// Behind each piece: how much was taken, and where the record under way starts.
    fn scan(&mut self, log: usize, bytes: &[u8], sizes: &mut Sizes) {
        let ends = ends(bytes);
        let mut state = raw::Scanning::default();
        let (mut place, mut passed) = (0, 0);
        loop {
            while ends.get(passed + 1).is_some_and(|end| *end <= place) {
                passed += 1;
            }
            let wanted = (ends[passed] as u64, place as u64);
            if (state.start, state.place) != wanted {
                let told = (state.start, state.place);
                fail(&format!("difference: scanned {told:?}, not {wanted:?}"));
            }
            if place == bytes.len() {
                return;
            }
            let end = bytes.len().min(place + sizes.next(log));
            let piece = self.rooms[log].put(&bytes[place..end]);
            // The pointer comes with its own length.
            unsafe { raw::hgrpc_scan(&mut state, piece.as_ptr(), piece.len()) };
            place = end;
        }
    }

    fn compare(&mut self, logs: [&[u8]; 2], sizes: &mut Sizes, late: bool) {
        let mut turn = Turn {
            logs,
            state: raw::Comparing::default(),
            taken: [0; 2],
            come: [0; 2],
            late,
        };
        let wanted = compare(logs[0], logs[1]);
        let mut told = Vec::new();
        let mut took = true;
        loop {
            turn.come(sizes, took);
            let at_hand = turn.at_hand(0) && turn.at_hand(1);
            let all = turn.last(0) && turn.last(1);
            let over = turn.is_over();
            let entry;
            (entry, took) = self.step(&mut turn);
            told.extend(entry);
            if all && !took {
                break;
            }
            if wanted.is_ok() && at_hand && !over && !took {
                fail(&format!("difference: a step takes nothing of {logs:02x?}"));
            }
        }
        match wanted {
            Ok(wanted) => whole(&turn, &told, &wanted),
            Err(_) => broken(&turn, &told),
        }
    }

    /// What a step tells, and whether it took something.
    fn step(&mut self, turn: &mut Turn) -> (Option<Entry>, bool) {
        self.steps += 1;
        let [one, other] = &mut self.rooms;
        let pieces = [one.put(turn.piece(0)), other.put(turn.piece(1))];
        let last = [turn.last(0), turn.last(1)];
        let (entry, taken) = step(&mut turn.state, pieces.map(|piece| &*piece), last);
        for log in 0..2 {
            turn.taken[log] += taken[log];
        }
        (entry, taken != [0, 0])
    }
}

/// A step. Whatever the state, no more is taken than there is, and the entry is one.
pub fn step(
    state: &mut raw::Comparing,
    pieces: [&[u8]; 2],
    last: [bool; 2],
) -> (Option<Entry>, [usize; 2]) {
    let mut taken = [usize::MAX; 2];
    let [first_taken, second_taken] = &mut taken;
    let mut entry = LogEntry {
        number: 9,
        first: 9,
        second: 9,
    };
    // Each pointer comes with its own length.
    let logs = unsafe {
        raw::hgrpc_compare(
            state,
            pieces[0].as_ptr(),
            pieces[0].len(),
            last[0],
            pieces[1].as_ptr(),
            pieces[1].len(),
            last[1],
            first_taken,
            second_taken,
            &mut entry,
        )
    };
    if taken[0] > pieces[0].len() || taken[1] > pieces[1].len() {
        fail(&format!(
            "difference: {taken:?} bytes taken of {pieces:02x?}"
        ));
    }
    (entry_of(logs, &entry), taken)
}

/// The entry of an answer, whose lengths are 0 where there is no record.
pub fn entry_of(logs: u32, entry: &LogEntry) -> Option<Entry> {
    let length = |log: u32, length: u64| match logs & log {
        0 if length != 0 => fail(&format!("difference: {logs} answered with {entry:?}")),
        0 => None,
        _ => Some(length as usize),
    };
    let (first, second) = (length(1, entry.first), length(2, entry.second));
    if logs > 3 || logs == 0 && entry.number != 0 {
        fail(&format!("difference: {logs} answered with {entry:?}"));
    }
    (logs != 0).then_some(Entry {
        number: entry.number,
        first,
        second,
    })
}

fn whole(turn: &Turn, told: &[Entry], wanted: &[Entry]) {
    // The pointer is to a comparison.
    let compared = unsafe { raw::hgrpc_compared(&turn.state) };
    if !turn.is_over() || !compared {
        fail(&format!("difference: no end of {:02x?}", turn.logs));
    }
    if told != wanted {
        let logs = turn.logs;
        fail(&format!(
            "difference: {told:?}, not {wanted:?}, of {logs:02x?}"
        ));
    }
}

/// A log is broken: that is told at the end, and the records that both logs have whole were compared.
fn broken(turn: &Turn, told: &[Entry]) {
    let logs = turn.logs;
    // The pointer is to a comparison.
    let compared = unsafe { raw::hgrpc_compared(&turn.state) };
    if turn.is_over() && compared {
        fail(&format!("difference: no break in {logs:02x?}"));
    }
    let counts = logs.map(|log| ends(log).len() as u64 - 1);
    let both = counts[0].min(counts[1]);
    let fronts = compare(front(logs[0]), front(logs[1])).expect("the fronts are whole");
    let within = |entry: &&Entry| entry.number <= both;
    let begun = logs.map(begun);
    let past = told
        .iter()
        .any(|entry| entry.number > begun[0].min(begun[1]));
    if past || !told.iter().filter(within).eq(fronts.iter().filter(within)) {
        fail(&format!(
            "difference: {told:?}, not {fronts:?}, of {logs:02x?}"
        ));
    }
}

/// The last record that can begin, if the log is broken: one whose head is not whole does not.
fn begun(log: &[u8]) -> u64 {
    let Log { records, broken } = read(log, NEW);
    match broken.len() {
        0 => u64::MAX,
        1..=5 => records.len() as u64,
        _ => records.len() as u64 + 1,
    }
}
