//! Takes a line, makes the call that it asks for, and answers.

use crate::room::{Edge, Room};
use crate::state;
use crate::words::{bit, bytes, hex, number, parts};
use hgrpc::{apply_bytes, first_board_bytes, label_bytes, switch_bytes};
use hgrpc::{convert, whole};
use hgrpc::{feed_bytes, finish_bytes, fresh_bytes, raw, row_bytes, send, Request};
use hgrpc::{BOARD, COILS, ENTRY, LABEL_LONGEST, STATE, WORK};
use second::bytes as state_bytes;

/// A longer line is bad.
pub const LINE: usize = 700_000;
/// The most bytes of a work area, and of an output.
const AREA: usize = 100_000;
const OUTPUT: usize = 300_000;
/// What an output holds before the call.
const UNWRITTEN: u8 = 0xa5;
/// The most entries of a row, and what it holds before the call.
const ENTRIES: usize = 1_000;
const UNFILLED: u8 = 0xff;

/// A channel and a board that lines drive. Each buffer has room of its own.
pub struct Driver {
    state: Room,
    work: Room,
    input: Room,
    output: Room,
    command: Room,
    key: Room,
    name: Room,
    pairs: Room,
    data: Room,
    log: Room,
    second_log: Room,
    row: Room,
    board: Room,
    /// The length of the work area.
    size: usize,
    /// Of the last feed, send or convert: the length of its output, and how much
    /// it wrote.
    asked: usize,
    written: usize,
}

impl Driver {
    /// A fresh channel and the first board. The buffers all lie against such an
    /// edge.
    pub fn new(edge: Edge) -> Driver {
        let mut driver = Driver {
            state: Room::new(STATE, edge),
            work: Room::new(AREA, edge),
            input: Room::new(LINE / 2, edge),
            output: Room::new(OUTPUT, edge),
            command: Room::new(LINE / 2, edge),
            key: Room::new(LINE / 2, edge),
            name: Room::new(LINE / 2, edge),
            pairs: Room::new(LINE / 2, edge),
            data: Room::new(LINE / 2, edge),
            log: Room::new(LINE / 2, edge),
            second_log: Room::new(LINE / 2, edge),
            row: Room::new(ENTRIES * ENTRY, edge),
            board: Room::new(BOARD, edge),
            size: 0,
            asked: 0,
            written: 0,
        };
        driver.begin(WORK, 0);
        driver.first_board();
        driver
    }

    /// The answer to a line, which stands here without its line end. None for
    /// an empty line and for a comment.
    pub fn answer(&mut self, line: &[u8]) -> Option<String> {
        if line.is_empty() || line[0] == b'#' {
            return None;
        }
        let short = Some(line).filter(|line| line.len() <= LINE);
        let answer = short.and_then(|line| self.run(&parts(line, b' ')));
        Some(answer.unwrap_or_else(|| "bad".to_string()))
    }

    pub fn state(&self) -> &[u8] {
        self.state.lent(STATE)
    }

    pub fn work(&self) -> &[u8] {
        self.work.lent(self.size)
    }

    pub fn board(&self) -> &[u8] {
        self.board.lent(BOARD)
    }

    /// None if the words cannot be read; nothing has changed then.
    fn run(&mut self, words: &[&[u8]]) -> Option<String> {
        match *words {
            [b"fresh", size] => self.fresh(size, b"0"),
            [b"fresh", size, first] => self.fresh(size, first),
            [b"set", ref words @ ..] => self.set(words),
            [b"poke", place, spelled] => self.poke(place, spelled),
            [b"feed", length, spelled] => self.feed(length, spelled),
            [b"finish", id] => self.finish(id),
            [b"active"] => Some(self.active()),
            [b"row", entries] => self.row(entries),
            [b"send", ref words @ ..] => self.send(words),
            [b"convert", length, spelled] => self.convert(length, spelled),
            [b"whole", spelled] => self.whole(spelled),
            [b"compare", first, second] => self.compare(first, second),
            [b"state"] => Some(self.state_words()),
            [b"tail"] => Some(self.tail()),
            [b"work", from, to] => self.work_part(from, to),
            [b"worksum"] => Some(format!("worksum {}", adler(self.work()))),
            [b"check", command] => self.check(command),
            [b"name", command] => self.name(command),
            [b"arg", command, key] => self.argument(command, key),
            [b"int", command, key] => self.integer(command, key),
            [b"count", command] => self.count(command),
            [b"loose", command] => self.loose(command),
            [b"board"] => Some(self.board_words()),
            [b"board", b"fresh"] => Some(self.first_board()),
            [b"board", command] => self.apply(command),
            _ => None,
        }
    }

    fn begin(&mut self, size: usize, first: usize) {
        let number = fresh_bytes(self.state.lend(STATE));
        assert_eq!(number, 0, "a state of {STATE} bytes is made fresh");
        self.size = size;
        // The bytes come again after 256 of them.
        let turn: [u8; 256] = std::array::from_fn(|place| (7 * place + first) as u8);
        for part in self.work.lend(size).chunks_mut(turn.len()) {
            part.copy_from_slice(&turn[..part.len()]);
        }
    }

    fn fresh(&mut self, size: &[u8], first: &[u8]) -> Option<String> {
        let size = number(size, AREA as u64)? as usize;
        let first = number(first, 255)? as usize;
        self.begin(size, first);
        Some("fresh".to_string())
    }

    fn set(&mut self, words: &[&[u8]]) -> Option<String> {
        let state = state::read(words)?;
        self.state.put(&state_bytes::write(&state));
        Some("set".to_string())
    }

    fn state_words(&self) -> String {
        let state = state_bytes::read(self.state());
        let state = state.expect("a call leaves the bytes of a state");
        format!("state {}", state::text(&state))
    }

    fn poke(&mut self, place: &[u8], spelled: &[u8]) -> Option<String> {
        let place = number(place, AREA as u64)? as usize;
        let poked = bytes(spelled)?;
        let work = self.work.lend(self.size);
        work.get_mut(place..place + poked.len())?
            .copy_from_slice(&poked);
        Some("poked".to_string())
    }

    fn feed(&mut self, length: &[u8], spelled: &[u8]) -> Option<String> {
        let length = number(length, OUTPUT as u64)? as usize;
        let input = bytes(spelled)?;
        let output = self.output.lend(length);
        output.fill(UNWRITTEN);
        let fed = feed_bytes(
            self.state.lend(STATE),
            self.work.lend(self.size),
            self.input.put(&input),
            output,
        );
        assert!(self.input.lent(input.len()) == input, "input is only read");
        self.asked = length;
        self.written = fed.written;
        let records = hex(&self.output.lent(length)[..fed.written]);
        let (number, taken, written) = (fed.number, fed.taken, fed.written);
        Some(format!("fed {number} {taken} {written} {records}"))
    }

    fn finish(&mut self, id: &[u8]) -> Option<String> {
        let id = number(id, 65_535)? as u16;
        let number = finish_bytes(self.state.lend(STATE), id);
        Some(format!("finished {number}"))
    }

    /// The count is told as the call leaves it, also where the call refuses.
    fn active(&self) -> String {
        let mut count = usize::MAX;
        let state = self.state();
        // The pointer comes with its own length.
        let number = unsafe { raw::hgrpc_active(state.as_ptr(), state.len(), &mut count) };
        format!("active {number} {count}")
    }

    fn row(&mut self, entries: &[u8]) -> Option<String> {
        let entries = number(entries, ENTRIES as u64)? as usize;
        let row = self.row.lend(entries * ENTRY);
        row.fill(UNFILLED);
        let number = row_bytes(self.state.lent(STATE), row);
        let entries: String = row.chunks(ENTRY).map(state::entry).collect();
        Some(format!("row {number}{entries}"))
    }

    fn send(&mut self, words: &[&[u8]]) -> Option<String> {
        let [length, name, count, pairs, id, stream, begin, end, size, data] = *words else {
            return None;
        };
        let length = number(length, OUTPUT as u64)? as usize;
        let (name, pairs) = (bytes(name)?, bytes(pairs)?);
        let data = match data {
            b"none" => None,
            _ => Some(bytes(data)?),
        };
        let request = Request {
            id: number(id, 65_535)? as u16,
            stream: number(stream, 255)? as u8,
            begin: bit(begin)?,
            end: bit(end)?,
            size: number(size, u64::MAX)? as usize,
            name: self.name.put(&name),
            pairs: self.pairs.put(&pairs),
            count: number(count, u64::MAX)?,
            data: data.as_ref().map(|data| &*self.data.put(data)),
        };
        let output = self.output.lend(length);
        output.fill(UNWRITTEN);
        let sent = send(&request, output);
        assert!(self.name.lent(name.len()) == name, "a name is only read");
        assert!(self.pairs.lent(pairs.len()) == pairs, "pairs are only read");
        if let Some(data) = data {
            assert!(self.data.lent(data.len()) == data, "data is only read");
        }
        self.asked = length;
        self.written = sent.written;
        let frames = hex(&self.output.lent(length)[..sent.written]);
        let (number, written) = (sent.number, sent.written);
        Some(format!("sent {number} {written} {frames}"))
    }

    fn convert(&mut self, length: &[u8], spelled: &[u8]) -> Option<String> {
        let length = number(length, OUTPUT as u64)? as usize;
        let log = bytes(spelled)?;
        let output = self.output.lend(length);
        output.fill(UNWRITTEN);
        let converted = convert(self.log.put(&log), output);
        assert!(self.log.lent(log.len()) == log, "a log is only read");
        self.asked = length;
        self.written = converted.written;
        let (number, written) = (converted.number, converted.written);
        let records = hex(&self.output.lent(length)[..written]);
        Some(format!("converted {number} {written} {records}"))
    }

    fn whole(&mut self, spelled: &[u8]) -> Option<String> {
        let log = bytes(spelled)?;
        let count = whole(self.log.put(&log));
        assert!(self.log.lent(log.len()) == log, "a log is only read");
        Some(format!("whole {count}"))
    }

    /// The place is told as the call leaves it, also where both logs are whole.
    fn compare(&mut self, first: &[u8], second: &[u8]) -> Option<String> {
        let (first, second) = (bytes(first)?, bytes(second)?);
        let (one, other) = (self.log.put(&first), self.second_log.put(&second));
        let (broken, place) = logs_broken(one, other);
        let entries = match broken {
            0 => entries(one, other),
            _ => String::new(),
        };
        let kept = self.log.lent(first.len()) == first;
        assert!(kept, "a log is only read");
        let kept = self.second_log.lent(second.len()) == second;
        assert!(kept, "a log is only read");
        Some(format!("compared {broken} {place}{entries}"))
    }

    fn tail(&self) -> String {
        let tail = &self.output.lent(self.asked)[self.written..];
        let kept = tail.iter().all(|byte| *byte == UNWRITTEN);
        format!("tail {}", if kept { "kept" } else { "changed" })
    }

    fn work_part(&self, from: &[u8], to: &[u8]) -> Option<String> {
        let from = number(from, AREA as u64)? as usize;
        let to = number(to, AREA as u64)? as usize;
        Some(format!("work {}", hex(self.work().get(from..to)?)))
    }

    fn check(&mut self, command: &[u8]) -> Option<String> {
        let command = self.command.put(&bytes(command)?);
        Some(format!("checked {}", hgrpc::check(command)))
    }

    fn name(&mut self, command: &[u8]) -> Option<String> {
        let command = self.command.put(&bytes(command)?);
        Some(found("named", hgrpc::name(command)))
    }

    fn argument(&mut self, command: &[u8], key: &[u8]) -> Option<String> {
        let (command, key) = (bytes(command)?, bytes(key)?);
        let (command, key) = (self.command.put(&command), self.key.put(&key));
        Some(found("argument", hgrpc::argument(command, key)))
    }

    fn integer(&mut self, command: &[u8], key: &[u8]) -> Option<String> {
        let (command, key) = (bytes(command)?, bytes(key)?);
        let (command, key) = (self.command.put(&command), self.key.put(&key));
        Some(match hgrpc::integer(command, key) {
            Ok(value) => format!("integer 0 {value}"),
            Err(number) => format!("integer {number} 0"),
        })
    }

    fn count(&mut self, command: &[u8]) -> Option<String> {
        let command = self.command.put(&bytes(command)?);
        Some(format!("counted {}", hgrpc::argument_count(command)))
    }

    fn loose(&mut self, command: &[u8]) -> Option<String> {
        let command = self.command.put(&bytes(command)?);
        Some(format!("loose {}", u8::from(hgrpc::loose(command))))
    }

    fn first_board(&mut self) -> String {
        let number = first_board_bytes(self.board.lend(BOARD));
        assert_eq!(number, 0, "a board of {BOARD} bytes is made the first");
        "board fresh".to_string()
    }

    fn apply(&mut self, command: &[u8]) -> Option<String> {
        let command = bytes(command)?;
        let number = apply_bytes(self.board.lend(BOARD), self.command.put(&command));
        let lent = self.command.lent(command.len());
        assert!(lent == command, "a command is only read");
        Some(format!("board {number}"))
    }

    /// The switches and labels by their calls; what is behind a label stands in
    /// the board's bytes.
    fn board_words(&self) -> String {
        let board = self.board();
        let coils = (0..COILS).map(|coil| {
            let on = switch_bytes(board, coil).expect("a coil is on or off");
            let label = label_bytes(board, coil).expect("a coil has a label");
            let at = label.as_ptr() as usize - board.as_ptr() as usize;
            let places = hex(&board[at..][..LABEL_LONGEST]);
            format!(" {}:{}:{places}", u8::from(on), label.len())
        });
        "board".to_string() + &coils.collect::<String>()
    }
}

fn logs_broken(first: &[u8], second: &[u8]) -> (u32, u64) {
    let mut place = u64::MAX;
    // Each pointer comes with its own length.
    let broken = unsafe {
        raw::hgrpc_logs_broken(
            first.as_ptr(),
            first.len(),
            second.as_ptr(),
            second.len(),
            &mut place,
        )
    };
    (broken, place)
}

/// The entries of two logs, with a space before each. A length of a record that is not
/// there is `-`, and it is told as 0.
fn entries(first: &[u8], second: &[u8]) -> String {
    let mut at = raw::LogPlace::START;
    let mut text = String::new();
    loop {
        let (logs, entry) = logs_next(first, second, &mut at);
        let length = |log: u32, length: u64| match (logs & log, length) {
            (0, 0) => "-".to_string(),
            (0, _) => panic!("log {log} has no record {}", entry.number),
            _ => length.to_string(),
        };
        if logs == 0 {
            assert_eq!(entry, raw::LogEntry::default(), "no entry is left");
            return text;
        }
        let (first, second) = (length(1, entry.first), length(2, entry.second));
        text += &format!(" {}:{first}:{second}", entry.number);
    }
}

fn logs_next(first: &[u8], second: &[u8], at: &mut raw::LogPlace) -> (u32, raw::LogEntry) {
    let mut entry = raw::LogEntry {
        number: 9,
        first: 9,
        second: 9,
    };
    // Each pointer comes with its own length.
    let logs = unsafe {
        raw::hgrpc_logs_next(
            first.as_ptr(),
            first.len(),
            second.as_ptr(),
            second.len(),
            at,
            &mut entry,
        )
    };
    (logs, entry)
}

fn found(word: &str, part: Result<&[u8], u32>) -> String {
    match part {
        Ok(part) => format!("{word} 0 {}", hex(part)),
        Err(number) => format!("{word} {number} -"),
    }
}

/// Adler-32.
fn adler(bytes: &[u8]) -> u32 {
    let (mut low, mut high) = (1u32, 0u32);
    // So many bytes keep both sums below 2^32.
    for run in bytes.chunks(5_000) {
        for byte in run {
            low += u32::from(*byte);
            high += low;
        }
        low %= 65_521;
        high %= 65_521;
    }
    high << 16 | low
}

#[cfg(test)]
mod tests {
    use super::*;

    #[test]
    fn adler_of_a_word() {
        assert_eq!(adler(b"Wikipedia"), 0x11e6_0398);
        assert_eq!(adler(b""), 1);
    }
}
