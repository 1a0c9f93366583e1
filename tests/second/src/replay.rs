//! The line interface: each line asks one thing, and its answer is one line.

use crate::board::Board;
use crate::bytes::{MOST_LENGTH, MOST_PENDING};
use crate::command;
use crate::differences::{self, length_text, Broken, Entry};
use crate::lamp::{self, ENTRY};
use crate::log::{convert, whole, Converted};
use crate::receiver::Receiver;
use crate::sender::{send, Request};
use crate::state::{Phase, Slot, State, SLOTS, WORK};
use std::collections::BTreeSet;

/// A longer line is bad.
const LINE: usize = 700_000;
/// The most bytes of a work area, and of an output.
const AREA: u64 = 100_000;
const OUTPUT: u64 = 300_000;
/// What an output holds before the call.
const UNWRITTEN: u8 = 0xa5;
/// The most entries of a row, and what each byte of them is before the call.
const ENTRIES: u64 = 1_000;
const UNFILLED: u8 = 0xff;

pub struct Replay {
    receiver: Receiver,
    /// The output of the last feed, send or convert, and how much of it was written.
    output: Vec<u8>,
    written: usize,
    board: Board,
}

impl Default for Replay {
    fn default() -> Replay {
        Replay {
            receiver: Receiver::start(State::fresh(), area(WORK, 0)),
            output: Vec::new(),
            written: 0,
            board: Board::first(),
        }
    }
}

impl Replay {
    pub fn receiver(&self) -> &Receiver {
        &self.receiver
    }

    pub fn board(&self) -> &Board {
        &self.board
    }

    /// The answer to a line, which stands here without its line end. None
    /// for an empty line and for a comment.
    pub fn answer(&mut self, line: &[u8]) -> Option<String> {
        if line.is_empty() || line[0] == b'#' {
            return None;
        }
        let short = Some(line).filter(|line| line.len() <= LINE);
        let text = short.and_then(|line| std::str::from_utf8(line).ok());
        let answer = text.and_then(|text| self.read(text));
        Some(answer.unwrap_or("bad".to_string()))
    }

    /// None if the line cannot be read; nothing has changed then. An empty
    /// word, where two spaces stand together or one at an end, is read as
    /// nothing.
    fn read(&mut self, line: &str) -> Option<String> {
        let words: Vec<&str> = line.split(' ').collect();
        match words[..] {
            ["fresh", length] => self.fresh(length, "0"),
            ["fresh", length, first] => self.fresh(length, first),
            ["set", ref state @ ..] => self.set(state),
            ["poke", place, bytes] => self.poke(place, bytes),
            ["feed", length, bytes] => self.feed(length, bytes),
            ["send", ref words @ ..] => self.send(words),
            ["convert", length, log] => self.convert(length, log),
            ["whole", log] => Some(format!("whole {}", whole(&from_hex(log)?))),
            ["compare", first, second] => compare(first, second),
            ["finish", id] => self.finish(id),
            ["active"] => Some(self.active()),
            ["row", entries] => self.row(entries),
            ["state"] => Some(format!("state {}", state_text(&self.receiver.state()))),
            ["tail"] => Some(self.tail()),
            ["work", from, to] => self.work(from, to),
            ["worksum"] => Some(format!("worksum {}", adler(self.receiver.work()))),
            ["check", bytes] => check(bytes),
            ["name", bytes] => name(bytes),
            ["arg", bytes, key] => argument(bytes, key),
            ["int", bytes, key] => integer(bytes, key),
            ["count", bytes] => count(bytes),
            ["loose", bytes] => loose(bytes),
            ["board"] => Some(board_text(&self.board)),
            ["board", "fresh"] => Some(self.first_board()),
            ["board", command] => self.apply(command),
            _ => None,
        }
    }

    fn fresh(&mut self, length: &str, first: &str) -> Option<String> {
        let length = number(length, AREA)? as usize;
        let first = number(first, 255)? as usize;
        self.receiver = Receiver::start(State::fresh(), area(length, first));
        Some("fresh".to_string())
    }

    fn set(&mut self, words: &[&str]) -> Option<String> {
        self.receiver.set(state(words)?);
        Some("set".to_string())
    }

    fn poke(&mut self, place: &str, bytes: &str) -> Option<String> {
        let place = number(place, AREA)? as usize;
        let bytes = from_hex(bytes)?;
        if place + bytes.len() > self.receiver.work().len() {
            return None;
        }
        self.receiver.poke(place, &bytes);
        Some("poked".to_string())
    }

    fn feed(&mut self, length: &str, bytes: &str) -> Option<String> {
        let length = number(length, OUTPUT)? as usize;
        let input = from_hex(bytes)?;
        self.lend(length);
        let fed = self.receiver.feed(&input, &mut self.output);
        self.written = fed.written;
        let records = to_hex(&self.output[..fed.written]);
        let (number, taken, written) = (fed.number, fed.taken, fed.written);
        Some(format!("fed {number} {taken} {written} {records}"))
    }

    /// An output of so many bytes for the next call.
    fn lend(&mut self, length: usize) {
        self.output.clear();
        self.output.resize(length, UNWRITTEN);
    }

    fn send(&mut self, words: &[&str]) -> Option<String> {
        let [length, name, count, pairs, id, stream, begin, end, size, data] = *words else {
            return None;
        };
        let length = number(length, OUTPUT)? as usize;
        let (name, pairs) = (from_hex(name)?, from_hex(pairs)?);
        let data = match data {
            "none" => None,
            _ => Some(from_hex(data)?),
        };
        let request = Request {
            name: &name,
            pairs: &pairs,
            count: number(count, u64::MAX)?,
            id: number(id, u16::MAX.into())? as u16,
            stream: number(stream, u8::MAX.into())? as u8,
            begin: bit(begin)?,
            end: bit(end)?,
            size: number(size, u64::MAX)?,
            data: data.as_deref(),
        };
        self.lend(length);
        let sent = send(&request, &mut self.output);
        self.written = sent.written;
        let frames = to_hex(&self.output[..sent.written]);
        let (number, written) = (sent.number, sent.written);
        Some(format!("sent {number} {written} {frames}"))
    }

    fn convert(&mut self, length: &str, log: &str) -> Option<String> {
        let length = number(length, OUTPUT)? as usize;
        let log = from_hex(log)?;
        self.lend(length);
        let Converted { number, written } = convert(&log, &mut self.output);
        self.written = written;
        let bytes = to_hex(&self.output[..written]);
        Some(format!("converted {number} {written} {bytes}"))
    }

    fn finish(&mut self, id: &str) -> Option<String> {
        let id = number(id, u16::MAX.into())? as u16;
        Some(format!("finished {}", self.receiver.finish(id)))
    }

    fn active(&self) -> String {
        let (number, count) = lamp::active(&self.receiver.state());
        format!("active {number} {count}")
    }

    fn row(&self, entries: &str) -> Option<String> {
        let entries = number(entries, ENTRIES)? as usize;
        let mut row = vec![UNFILLED; entries * ENTRY];
        let number = lamp::fill(&self.receiver.state(), &mut row);
        let entries: String = row.chunks(ENTRY).map(entry_text).collect();
        Some(format!("row {number}{entries}"))
    }

    fn first_board(&mut self) -> String {
        self.board = Board::first();
        "board fresh".to_string()
    }

    fn apply(&mut self, command: &str) -> Option<String> {
        let number = self.board.apply(&from_hex(command)?);
        Some(format!("board {number}"))
    }

    fn tail(&self) -> String {
        let mut tail = self.output[self.written..].iter();
        let kept = tail.all(|byte| *byte == UNWRITTEN);
        format!("tail {}", if kept { "kept" } else { "changed" })
    }

    fn work(&self, from: &str, to: &str) -> Option<String> {
        let from = number(from, AREA)? as usize;
        let to = number(to, AREA)? as usize;
        let bytes = self.receiver.work().get(from..to)?;
        Some(format!("work {}", to_hex(bytes)))
    }
}

fn compare(first: &str, second: &str) -> Option<String> {
    let (first, second) = (from_hex(first)?, from_hex(second)?);
    Some(match differences::compare(&first, &second) {
        Ok(entries) => {
            let entries: String = entries.iter().map(difference_text).collect();
            format!("compared 0 0{entries}")
        }
        Err(Broken { log, place }) => format!("compared {log} {place}"),
    })
}

/// The bytes come again after 256 of them.
fn area(length: usize, first: usize) -> Vec<u8> {
    let turn: Vec<u8> = (0..256).map(|place| (7 * place + first) as u8).collect();
    let mut area = turn.repeat(length.div_ceil(turn.len()));
    area.truncate(length);
    area
}

fn check(bytes: &str) -> Option<String> {
    let bytes = from_hex(bytes)?;
    Some(format!("checked {}", command::check(&bytes)))
}

fn name(bytes: &str) -> Option<String> {
    let bytes = from_hex(bytes)?;
    let content = to_hex(command::name(&bytes));
    Some(format!("named {} {content}", command::check(&bytes)))
}

fn argument(bytes: &str, key: &str) -> Option<String> {
    let (bytes, key) = (from_hex(bytes)?, from_hex(key)?);
    let number = command::argument_number(&bytes, &key);
    let item = to_hex(command::argument(&bytes, &key));
    Some(format!("argument {number} {item}"))
}

fn integer(bytes: &str, key: &str) -> Option<String> {
    let (bytes, key) = (from_hex(bytes)?, from_hex(key)?);
    let number = command::integer_number(&bytes, &key);
    let value = command::integer(&bytes, &key);
    Some(format!("integer {number} {value}"))
}

fn count(bytes: &str) -> Option<String> {
    let bytes = from_hex(bytes)?;
    Some(format!("counted {}", command::argument_count(&bytes)))
}

fn loose(bytes: &str) -> Option<String> {
    let mark = u8::from(command::loose(&from_hex(bytes)?));
    Some(format!("loose {mark}"))
}

/// The board's coils, each with its switch, its label's length and all of the
/// label's places.
fn board_text(board: &Board) -> String {
    let coils = board.coils.iter().map(|coil| {
        let (on, length) = (u8::from(coil.on), coil.label.len());
        format!(" {on}:{length}:{}", to_hex(&coil.places()))
    });
    "board".to_string() + &coils.collect::<String>()
}

/// Digits alone, and at most `most`.
fn number(word: &str, most: u64) -> Option<u64> {
    if !word.bytes().all(|byte| byte.is_ascii_digit()) {
        return None;
    }
    word.parse().ok().filter(|number| *number <= most)
}

fn bit(word: &str) -> Option<bool> {
    match word {
        "0" => Some(false),
        "1" => Some(true),
        _ => None,
    }
}

fn digit(byte: u8) -> Option<u8> {
    match byte {
        b'0'..=b'9' => Some(byte - b'0'),
        b'a'..=b'f' => Some(byte - b'a' + 10),
        _ => None,
    }
}

pub fn from_hex(word: &str) -> Option<Vec<u8>> {
    if word == "-" {
        return Some(Vec::new());
    }
    if word.is_empty() || word.len() % 2 != 0 {
        return None;
    }
    let pairs = word.as_bytes().chunks(2);
    pairs
        .map(|pair| Some(digit(pair[0])? << 4 | digit(pair[1])?))
        .collect()
}

pub fn to_hex(bytes: &[u8]) -> String {
    if bytes.is_empty() {
        return "-".to_string();
    }
    let digit = |half: u8| char::from(b"0123456789abcdef"[usize::from(half)]);
    let pairs = bytes.iter().map(|byte| [byte >> 4, byte & 0x0f]);
    pairs.flatten().map(digit).collect()
}

/// An entry of a row, with a space before it.
fn entry_text(entry: &[u8]) -> String {
    let id = u16::from_le_bytes([entry[0], entry[1]]);
    let phase = "fcwrd".chars().nth(entry[2].into()).unwrap_or('x');
    format!(" {id}:{phase}")
}

/// An entry of a comparison, with a space before it.
fn difference_text(entry: &Entry) -> String {
    let [first, second] = [entry.first, entry.second].map(length_text);
    format!(" {}:{first}:{second}", entry.number)
}

fn state(words: &[&str]) -> Option<State> {
    let [dead, pending, slots @ .., open, count] = words else {
        return None;
    };
    let slots: Option<Vec<Slot>> = slots.iter().map(|word| slot(word)).collect();
    Some(State {
        dead: number(dead, u8::MAX.into())? as u8,
        pending: number(pending, MOST_PENDING)?,
        slots: <[Slot; SLOTS]>::try_from(slots?).ok()?,
        open: streams(open)?,
        count: number(count, u8::MAX.into())? as u8,
    })
}

fn slot(word: &str) -> Option<Slot> {
    let parts: Vec<&str> = word.split(':').collect();
    let [id, phase, data, length] = parts[..] else {
        return None;
    };
    Some(Slot {
        id: number(id, u16::MAX.into())? as u16,
        phase: match phase {
            "f" => Phase::Free,
            "c" => Phase::Collecting,
            "w" => Phase::Waiting,
            "r" => Phase::Running,
            "d" => Phase::Draining,
            _ => return None,
        },
        data: bit(data)?,
        length: number(length, MOST_LENGTH)?,
    })
}

/// Odd ids, each above the one before.
fn streams(word: &str) -> Option<BTreeSet<u8>> {
    let mut open = BTreeSet::new();
    if word == "-" {
        return Some(open);
    }
    for id in word.split(',') {
        let id = number(id, 255)? as u8;
        if id % 2 == 0 || open.last().is_some_and(|last| *last >= id) {
            return None;
        }
        open.insert(id);
    }
    Some(open)
}

/// A state as the lines have it.
pub fn state_text(state: &State) -> String {
    let mut text = format!("{} {}", state.dead, state.pending);
    for slot in &state.slots {
        let phase = match slot.phase {
            Phase::Free => 'f',
            Phase::Collecting => 'c',
            Phase::Waiting => 'w',
            Phase::Running => 'r',
            Phase::Draining => 'd',
        };
        let (id, data, length) = (slot.id, u8::from(slot.data), slot.length);
        text += &format!(" {id}:{phase}:{data}:{length}");
    }
    let open: Vec<String> = state.open.iter().map(u8::to_string).collect();
    let open = if open.is_empty() {
        "-".to_string()
    } else {
        open.join(",")
    };
    text + &format!(" {open} {}", state.count)
}

/// Adler-32. The sums are cut to size after each run of bytes, in which
/// they stay far below 2^64.
fn adler(bytes: &[u8]) -> u64 {
    let (mut low, mut high) = (1u64, 0u64);
    for run in bytes.chunks(10_000) {
        for byte in run {
            low += u64::from(*byte);
            high += low;
        }
        low %= 65521;
        high %= 65521;
    }
    high << 16 | low
}

#[cfg(test)]
mod tests {
    use super::*;
    use crate::state::PENDING;

    #[test]
    fn adler_of_a_word() {
        assert_eq!(adler(b"Wikipedia"), 0x11e6_0398);
        assert_eq!(adler(b""), 1);
    }

    #[test]
    fn unanswered() {
        let mut replay = Replay::default();
        assert_eq!(replay.answer(b""), None);
        assert_eq!(replay.answer(b"# feed 0 -"), None);
        assert_eq!(replay.answer(b"#\xff"), None);
    }

    #[test]
    fn bad_lines() {
        let mut replay = Replay::default();
        let before = replay.answer(b"state");
        let lines = "x|state |state  | state|fresh|fresh 100001|fresh -|fresh 5 256|fresh 5 0 0|\
            fresh +5|fresh 5 |feed 5|feed 5 0|feed 5 0A|feed 5 0g|feed -1 -|feed 300001 -|feed  5 -|\
            finish 65536|finish|finish -|finish 1 |active 0|active |actives|row|row |row -|row -1|row +8|\
            row 1001|row 8 8|row 0x8|row 18446744073709551616|rows 8|poke 81927 00|poke 81928 -|poke 0 0|work 2 1|\
            work 0 81928|poke 100001 -|work 0 100001|worksum 0|tail 0|check|check 0|name|arg -|int 00|set|set 0 0 -|\u{e9}|state\r|\
            send|send 9 61 0 - 1 1 0 0 1|send 9 61 0 - 1 1 0 0 1 none 0|send 9 61 0 - 1 1 0 0 1 |\
            send 9 61 0 - 1 1 0 2 1 none|send 9 61 0 - 1 1 00 0 1 none|send 9 61 0 - 1 256 0 0 1 none|\
            send 9 61 0 - 65536 1 0 0 1 none|send 9 61 0 - 1 1 0 0 18446744073709551616 none|\
            send 9 61 18446744073709551616 - 1 1 0 0 1 none|send 300001 61 0 - 1 1 0 0 1 none|\
            send 9 6 0 - 1 1 0 0 1 none|send 9 61 0 0g 1 1 0 0 1 none|send 9 none 0 - 1 1 0 0 1 none|\
            send 9 61 0 none 1 1 0 0 1 none|send 9 61 0 - 1 1 0 0 1 None|send 9 61 -1 - 1 1 0 0 1 none|\
            count|count 0|count 00 00|loose|loose 0|loose 0A|loose 00 00|board |board 0|board 0A|board Fresh|board fresh fresh|board 00 00|board  00|boards|\
            convert|convert 9|convert 9 0|convert 9 0A|convert 300001 -|convert -1 -|convert 9 - -|convert  9 -|Convert 9 -|whole|whole 0|whole - -|wholes -|\
            compare|compare -|compare - 0|compare 0A -|compare - 0g|compare - - -|compare  - -|compare - |Compare - -|compares - -";
        for line in lines.split('|') {
            let answer = replay.answer(line.as_bytes());
            assert_eq!(answer.as_deref(), Some("bad"), "{line}");
        }
        assert_eq!(replay.answer(b"\xff").as_deref(), Some("bad"));
        assert_eq!(replay.answer(b"state"), before);
        assert_eq!(replay.board, Board::first());
    }

    #[test]
    fn boards() {
        let mut replay = Replay::default();
        let empty = format!(" 0:0:{}", "0".repeat(32)).repeat(16);
        let set = "a2446e616d65437365744461726773a244636f696c00426f6ef5";
        for (line, answer) in [
            ("board".to_string(), format!("board{empty}")),
            (format!("board {set}"), "board 0".to_string()),
            ("board -".to_string(), "board 24".to_string()),
            (
                "board".to_string(),
                format!("board{}", empty.replacen('0', "1", 1)),
            ),
            ("board fresh".to_string(), "board fresh".to_string()),
            ("board".to_string(), format!("board{empty}")),
            (format!("count {set}"), "counted 2".to_string()),
            ("count -".to_string(), "counted 0".to_string()),
        ] {
            assert_eq!(replay.answer(line.as_bytes()), Some(answer), "{line}");
        }
    }

    /// T1's command, then in other heads: its mark, and the record of a frame
    /// with it, without data and with data.
    #[test]
    fn loose_commands() {
        let mut replay = Replay::default();
        let command = "a2446e616d65437365744461726773a0";
        let other = "a2446e616d6558037365744461726773a0";
        for (line, answer) in [
            (format!("loose {command}"), "loose 0".to_string()),
            (format!("loose {other}"), "loose 1".to_string()),
            (format!("loose {other}00"), "loose 0".to_string()),
            ("loose -".to_string(), "loose 0".to_string()),
            (
                format!("feed 70000 1000000100010111{command}"),
                format!("fed 0 24 25 130000000100010000{command}"),
            ),
            (
                format!("feed 70000 1100000300010011{other}"),
                format!("fed 0 25 26 140000000100030002{other}"),
            ),
            (
                format!("feed 70000 1100000500010019{other}"),
                format!("fed 0 25 26 140000000100050003{other}"),
            ),
        ] {
            assert_eq!(replay.answer(line.as_bytes()), Some(answer), "{line}");
        }
    }

    /// Rows of a fresh channel, of a busy one, of a dead one, and of one whose count
    /// is wrong; shorter than eight entries, just as long, and longer.
    #[test]
    fn rows() {
        let mut replay = Replay::default();
        let slots = "1:c:0:0 0:f:0:0 3:w:1:0 5:r:0:0 0:f:0:0 7:d:1:0 0:f:0:0 65535:r:1:0";
        let entries = " 1:c 0:f 3:w 5:r 0:f 7:d 0:f 65535:r";
        let kept = " 65535:x";
        for (line, answer) in [
            ("active".to_string(), "active 0 0".to_string()),
            ("row 8".to_string(), format!("row 0{}", " 0:f".repeat(8))),
            (format!("set 0 0 {slots} - 5"), "set".to_string()),
            ("active".to_string(), "active 0 5".to_string()),
            ("row 0".to_string(), "row 9".to_string()),
            ("row 7".to_string(), format!("row 9{}", kept.repeat(7))),
            ("row 8".to_string(), format!("row 0{entries}")),
            ("row 9".to_string(), format!("row 0{entries}{kept}")),
            (format!("set 29 0 {slots} - 5"), "set".to_string()),
            ("active".to_string(), "active 0 5".to_string()),
            ("row 10".to_string(), format!("row 0{entries}{kept}{kept}")),
            (format!("set 29 0 {slots} - 4"), "set".to_string()),
            ("active".to_string(), "active 3 0".to_string()),
            ("row 0".to_string(), "row 3".to_string()),
            ("row 8".to_string(), format!("row 3{}", kept.repeat(8))),
            ("finish 5".to_string(), "finished 3".to_string()),
            ("feed 70000 -".to_string(), "fed 3 0 0 -".to_string()),
        ] {
            assert_eq!(replay.answer(line.as_bytes()), Some(answer), "{line}");
        }
        let longest = replay.answer(b"row 1000").expect("an answer");
        assert_eq!(longest.split(' ').count(), 2 + 1000);
    }

    /// E8: a request is finished twice before its data has come; then its data comes,
    /// and its id is used again.
    #[test]
    fn drains() {
        let mut replay = Replay::default();
        let rest = " 0:f:0:0".repeat(7);
        let command = "a2446e616d65437365744461726773a0";
        let waits = format!("0 0 1:w:1:0{rest} 1 1");
        let drains = waits.replace('w', "d");
        for (line, answer) in [
            (format!("set {waits}"), "set".to_string()),
            ("finish 1".to_string(), "finished 0".to_string()),
            ("state".to_string(), format!("state {drains}")),
            ("finish 1".to_string(), "finished 4".to_string()),
            (
                "feed 70000 02000001000100216869".to_string(),
                "fed 0 10 0 -".to_string(),
            ),
            ("state".to_string(), format!("state {drains}")),
            (
                "feed 70000 0000000100010222".to_string(),
                "fed 0 8 0 -".to_string(),
            ),
            ("state".to_string(), format!("state 0 0 0:f:0:0{rest} - 0")),
            (
                format!("feed 70000 1000000100010111{command}"),
                format!("fed 0 24 25 130000000100010000{command}"),
            ),
        ] {
            assert_eq!(replay.answer(line.as_bytes()), Some(answer), "{line}");
        }
    }

    /// A log of two records: exact, one byte short, longer, cut; and no log.
    #[test]
    fn logs() {
        let mut replay = Replay::default();
        let log = "020001006869000002ff";
        let new = "02000000010068690000000002ff";
        for (line, answer) in [
            (format!("convert 14 {log}"), format!("converted 0 14 {new}")),
            ("tail".to_string(), "tail kept".to_string()),
            (format!("convert 13 {log}"), "converted 71 0 -".to_string()),
            (
                format!("convert 300000 {log}"),
                format!("converted 0 14 {new}"),
            ),
            ("tail".to_string(), "tail kept".to_string()),
            (format!("convert 0 {log}00"), "converted 70 0 -".to_string()),
            ("convert 0 -".to_string(), "converted 0 0 -".to_string()),
            (format!("whole {log}"), "whole 10".to_string()),
            (format!("whole {log}000000"), "whole 10".to_string()),
            ("whole 0200010068".to_string(), "whole 0".to_string()),
            ("whole -".to_string(), "whole 0".to_string()),
        ] {
            assert_eq!(replay.answer(line.as_bytes()), Some(answer), "{line}");
        }
    }

    /// Two logs: equal, another kind, a record more, and cut in one and in both.
    #[test]
    fn comparisons() {
        let mut replay = Replay::default();
        let log = "02000000010068690000000002ff";
        for (line, answer) in [
            (format!("compare {log} {log}"), "compared 0 0"),
            ("compare - -".to_string(), "compared 0 0"),
            (format!("compare - {log}"), "compared 0 0 1:-:2 2:-:0"),
            (
                format!("compare {log} 02000000020068690100000002ff00000000000000"),
                "compared 0 0 1:2:2 2:0:1 3:-:0",
            ),
            (
                format!("compare {log} 0200000001006869"),
                "compared 0 0 2:0:-",
            ),
            (format!("compare {log} {log}00"), "compared 2 14"),
            (format!("compare {log}00 00"), "compared 1 14"),
            ("compare 00 -".to_string(), "compared 1 0"),
        ] {
            let told = replay.answer(line.as_bytes());
            assert_eq!(told.as_deref(), Some(answer), "{line}");
        }
    }

    #[test]
    fn longest_line() {
        let mut replay = Replay::default();
        let line = |digits: usize| format!("check {}", "0".repeat(digits));
        let answer = replay.answer(line(699_994).as_bytes());
        assert_eq!(answer.as_deref(), Some("checked 24"));
        let answer = replay.answer(line(699_996).as_bytes());
        assert_eq!(answer.as_deref(), Some("bad"));
    }

    /// Whatever the numbers, a state is answered as it was set.
    #[test]
    fn states() {
        let mut replay = Replay::default();
        let slots = "9:c:1:7 0:f:0:0 3:w:1:0 5:r:1:0 0:f:0:0 7:r:0:0 0:f:0:0 65535:c:0:2048";
        let drains = slots.replace("0:f:0:0 7:r:0:0", "11:d:1:0 7:d:1:0");
        let odd = "0:f:1:9 2:c:1:65535 2:w:0:0 5:r:1:1 5:r:1:0 8:f:0:0 1:d:0:3 65535:c:0:1";
        for state in [
            format!("0 0 {slots} - 5"),
            format!("0 0 {slots} - 4"),
            format!("0 0 {drains} 3 6"),
            format!("29 {PENDING} {slots} 1,3,255 5"),
            format!("255 16777215 {odd} 129 255"),
        ] {
            let set = replay.answer(format!("set {state}").as_bytes());
            assert_eq!(set.as_deref(), Some("set"));
            let told = replay.answer(b"state");
            assert_eq!(told, Some(format!("state {state}")));
        }
    }

    /// A number that does not fit its field, or a field too many or too few.
    #[test]
    fn bad_states() {
        let mut replay = Replay::default();
        let slots = "9:c:1:7 0:f:0:0 3:w:1:0 5:r:1:0 0:f:0:0 7:r:0:0 0:f:0:0 65535:c:0:2048";
        let with = |from: &str, to: &str| format!("set 0 0 {} - 5", slots.replace(from, to));
        let bad = [
            format!("set 256 0 {slots} - 5"),
            format!("set 0 16777216 {slots} - 5"),
            format!("set 0 18446744073709551616 {slots} - 5"),
            format!("set 0 0 {slots} 0:f:0:0 - 5"),
            format!("set 0 0 {slots} 2 5"),
            format!("set 0 0 {slots} 3,1 5"),
            format!("set 0 0 {slots} 1,1 5"),
            format!("set 0 0 {slots} 257 5"),
            format!("set 0 0 {slots} 1, 5"),
            format!("set 0 0 {slots} -"),
            format!("set 0 0 {slots} 5"),
            format!("set 0 0 {slots} - 256"),
            format!("set 0 0 {slots} - -"),
            format!("set 0 0 {slots} - "),
            format!("set 0 0 {slots} - 5 5"),
            with("9:c", "65537:c"),
            with("c:1:7", "c:1:65536"),
            with("c:1:7", "e:1:7"),
            with("c:1:7", "dd:1:7"),
            with("c:1:7", "c:2:7"),
        ];
        for line in bad {
            let answer = replay.answer(line.as_bytes());
            assert_eq!(answer.as_deref(), Some("bad"), "{line}");
        }
    }
}
