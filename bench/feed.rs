//! The receivers that are measured, and the inputs for all of them.
//!
//!     feed make KIND SIZE                                writes an input with SIZE payload bytes
//!     feed archive|second|fast|copy|read PIECE OUTPUT    feeds standard input in pieces, with an output of a length
//!     feed compare SEED COUNT                            holds `fast` to the second receiver
//!     feed sizes                                         prints the lengths of the longest command and record
//!
//! `archive` is the channel of the archive hgrpc, as users link it. `second`
//! is the plain receiver of the second implementation, which takes bytes
//! singly. `fast` is a receiver by hand. `copy` is the least that any of them
//! does: each byte is copied to a work area, and on to an output, in parts of
//! 4,096. `read` only reads, which the others do too.

mod check;
mod fast;
#[path = "../bindings/hgrpc.rs"]
mod hgrpc;

use check::{check, Checked};
use fast::{Fed, RECORD, WORK};
use second::receiver::{Receiver, Uncut};
use second::state::State;
use std::env::args;
use std::hint::black_box;
use std::io::{stdin, stdout, BufWriter, Read, Result, Write};
use std::process::exit;

// ---- the receivers

trait Feed {
    fn feed(&mut self, input: &[u8], out: &mut [u8]) -> Fed;
    fn finish(&mut self, id: u16) -> u8;
}

struct Channel<'w> {
    state: hgrpc::State,
    work: &'w mut [u8],
}

impl Feed for Channel<'_> {
    fn feed(&mut self, input: &[u8], out: &mut [u8]) -> Fed {
        let fed = self.state.feed(self.work, input, out);
        Fed {
            number: fed.number as u8,
            taken: fed.taken,
            written: fed.written,
        }
    }

    fn finish(&mut self, id: u16) -> u8 {
        self.state.finish(id) as u8
    }
}

impl Feed for fast::Receiver<'_> {
    fn feed(&mut self, input: &[u8], out: &mut [u8]) -> Fed {
        fast::Receiver::feed(self, input, out)
    }

    fn finish(&mut self, id: u16) -> u8 {
        fast::Receiver::finish(self, id)
    }
}

/// It has no output of its own, so a call stops here before the last byte of
/// a frame whose record might not fit.
impl Feed for Uncut {
    fn feed(&mut self, input: &[u8], out: &mut [u8]) -> Fed {
        self.records.clear();
        let mut taken = 0;
        let mut number = self.state.dead;
        while number == 0 && taken < input.len() {
            if out.len() - self.records.len() < RECORD && next_is_last(self) {
                number = 5;
                break;
            }
            self.byte(input[taken]);
            taken += 1;
            number = self.state.dead;
        }
        out[..self.records.len()].copy_from_slice(&self.records);
        Fed {
            number,
            taken,
            written: self.records.len(),
        }
    }

    fn finish(&mut self, id: u16) -> u8 {
        Uncut::finish(self, id)
    }
}

fn next_is_last(receiver: &Uncut) -> bool {
    let pending = receiver.state.pending as usize;
    pending >= 7 && pending == 7 + second::frame::claimed(&receiver.work)
}

// ---- the harness

#[derive(Default)]
struct Counts {
    place: u64,
    bytes: u64,
    sum: u64,
}

impl Counts {
    fn count(&mut self, records: &[u8]) {
        let Some(last) = records.last() else {
            return;
        };
        self.bytes += records.len() as u64;
        // The third byte of the first record's body says how its command is written.
        let more = records.len() as u64 + u64::from(records[8]) + u64::from(*last);
        self.sum = self.sum.wrapping_add(more);
    }
}

/// Calls `piece` with standard input, 65,536 bytes at a time, in pieces of
/// at most so many bytes.
fn pieces(most: usize, mut piece: impl FnMut(&[u8])) -> Result<()> {
    let mut input = stdin().lock();
    let mut bytes = vec![0; 65_536];
    loop {
        let count = input.read(&mut bytes)?;
        if count == 0 {
            return Ok(());
        }
        bytes[..count].chunks(most).for_each(&mut piece);
    }
}

fn feed_all(receiver: &mut impl Feed, most: usize, output: usize) -> Result<()> {
    let mut room = vec![0; 16 * RECORD];
    let out = &mut room[..output];
    let mut counts = Counts::default();
    pieces(most, |piece| take(receiver, piece, out, &mut counts))?;
    let Counts { bytes, sum, .. } = counts;
    println!("{bytes} bytes of records, sum {sum}");
    Ok(())
}

fn take(receiver: &mut impl Feed, piece: &[u8], out: &mut [u8], counts: &mut Counts) {
    let mut taken = 0;
    while taken < piece.len() {
        let fed = receiver.feed(&piece[taken..], out);
        taken += fed.taken;
        counts.place += fed.taken as u64;
        if fed.number != 0 && fed.number != 5 {
            println!("refused {} after {} bytes", fed.number, counts.place);
            exit(0);
        }
        let records = &out[..fed.written];
        counts.count(records);
        // A command without data, loose or not, and the last data.
        if let [1, 0, low, high, 0 | 2, ..] | [2, 0, low, high, 1, ..] = *behind_length(records) {
            receiver.finish(u16::from_le_bytes([low, high]));
        }
    }
}

/// The first record behind its length field.
fn behind_length(records: &[u8]) -> &[u8] {
    records.get(4..).unwrap_or_default()
}

/// A longer piece goes through in parts of this length: a copy of more at once is
/// one repeated instruction, of which each turn is counted, so that its count says
/// nothing.
const PART: usize = hgrpc::SEND_SIZE_LONGEST;

fn copy(most: usize) -> Result<()> {
    let mut work = vec![0; PART];
    let mut out = vec![0; PART];
    let mut total = 0;
    pieces(most, |piece| {
        for part in piece.chunks(PART) {
            let count = part.len();
            work[..count].copy_from_slice(part);
            let work = black_box(&work);
            out[..count].copy_from_slice(&work[..count]);
            black_box(&out);
            total += count;
        }
    })?;
    println!("{total} bytes copied twice");
    Ok(())
}

fn read(most: usize) -> Result<()> {
    let mut total = 0;
    pieces(most, |piece| total += black_box(piece).len())?;
    println!("{total} bytes read");
    Ok(())
}

// ---- the inputs

fn frame(out: &mut impl Write, first: bool, last: u8, payload: &[u8]) -> Result<()> {
    out.write_all(&(payload.len() as u32).to_le_bytes()[..3])?;
    out.write_all(&[1, 0, 1, u8::from(first), last])?;
    out.write_all(payload)
}

/// Name `set`, and arguments.
fn command(arguments: u8, entries: &[u8]) -> Vec<u8> {
    let mut command = b"\xa2\x44name\x43set\x44args".to_vec();
    command.extend(match arguments {
        0..=23 => vec![0xa0 | arguments],
        _ => vec![0xb8, arguments],
    });
    command.extend(entries);
    command
}

/// Keys that do not come in order, as in bench.c.
fn key(number: u8) -> Vec<u8> {
    format!("\x44k{:03}", u32::from(number) * 101 % 1000).into_bytes()
}

fn strings() -> Vec<u8> {
    let entry = |number| [&key(number)[..], b"\x58\x55", &[b'v'; 85]].concat();
    command(2, &[entry(0), entry(1)].concat())
}

/// 26 integers. The last needs a wider head, so that there are 200 bytes.
fn integers() -> Vec<u8> {
    let entry = |number| [&key(number)[..], &[0x18, 24 + number]].concat();
    let most: Vec<u8> = (0..25).flat_map(entry).collect();
    command(26, &[&most[..], &key(25), &[0x19, 1, 0]].concat())
}

/// As deep as the check goes: as many of the shortest keys as asked for, in no
/// order, and a value of six levels.
fn deep(keys: u16) -> Vec<u8> {
    let mut command = b"\xa2\x44name\x42on\x44args\xb9".to_vec();
    command.extend(keys.to_be_bytes());
    command.extend(b"\x40\x81\x81\x81\x81\x81\x80");
    for place in 1..keys {
        let number = (u32::from(place) * 233 % u32::from(keys - 1)) as u16;
        match number.to_be_bytes() {
            [0, low] => command.extend([0x41, low, 0]),
            [high, low] => command.extend([0x42, high, low, 0]),
        }
    }
    command
}

/// Data of so many bytes.
fn data(length: usize) -> Vec<u8> {
    (0..length).map(|i| (i * 7 + i / 256) as u8).collect()
}

/// What a frame of a kind of input carries: data in frames of 4,096, or of as much
/// as a frame holds; or a command.
fn payload(kind: &str) -> Vec<u8> {
    match kind {
        "data" => data(hgrpc::SEND_SIZE_LONGEST),
        "large" => data(hgrpc::PAYLOAD_LONGEST),
        "command16" => command(0, &[]),
        "command200" => strings(),
        "integers200" => integers(),
        "deep513" => deep(513),
        "deep571" => deep(571),
        _ => usage(),
    }
}

fn make(kind: &str, size: usize) -> Result<()> {
    let mut out = BufWriter::new(stdout().lock());
    let payload = payload(kind);
    let count = size / payload.len();
    let is_data = matches!(kind, "data" | "large");
    if is_data {
        frame(&mut out, true, 0x19, &command(0, &[]))?;
    }
    for index in 1..=count {
        let (first, last) = match is_data {
            true if index == count => (false, 0x22),
            true => (false, 0x21),
            false => (index == 1, 0x11),
        };
        frame(&mut out, first, last, &payload)?;
    }
    out.flush()
}

// ---- the comparison

fn compare(seed: u64, count: u64) {
    for index in 0..100 * count {
        let command = generate::case(seed, index).command;
        let wanted = Checked {
            number: second::command::check(&command) as u8,
            loose: second::command::loose(&command),
        };
        // The receiver's check is asked about no longer ones.
        if command.len() <= hgrpc::COMMAND_LONGEST && check(&command) != wanted {
            fail(&format!(
                "command {index} of seed {seed} is checked otherwise"
            ));
        }
    }
    let mut sessions = 0;
    for index in 0..count {
        let lines = generate::session(seed, index);
        let other = |line: &String| line.starts_with("set") || line.starts_with("poke");
        if !lines.iter().any(other) {
            sessions += 1;
            replay(&lines).unwrap_or_else(|line| {
                fail(&format!("session {index} of seed {seed} differs at {line}"));
            });
        }
    }
    println!("compared: {} commands, {sessions} sessions", 100 * count);
}

/// The calls of a session that starts fresh, on both receivers.
fn replay(lines: &[String]) -> std::result::Result<(), String> {
    let mut work = fast::area();
    let mut fast = fast::Receiver::new(&mut work);
    let mut second = Receiver::start(State::fresh(), vec![0; WORK]);
    for line in lines {
        let words: Vec<&str> = line.split(' ').collect();
        let same = match words[..] {
            ["feed", length, hex] => {
                let (Ok(length), Some(input)) = (length.parse(), bytes_of(hex)) else {
                    continue;
                };
                let mut out = vec![7; length];
                let mut other = vec![7; length];
                let fed = fast.feed(&input, &mut out);
                let answer = second.feed(&input, &mut other);
                (fed.number, fed.taken, fed.written)
                    == (answer.number, answer.taken, answer.written)
                    && out == other
            }
            ["finish", id] => id
                .parse()
                .map_or(true, |id| fast.finish(id) == second.finish(id)),
            _ => true,
        };
        if !same || fast.work() != second.work() {
            return Err(line.chars().take(60).collect());
        }
    }
    Ok(())
}

fn bytes_of(hex: &str) -> Option<Vec<u8>> {
    if hex == "-" {
        return Some(Vec::new());
    }
    let pairs = hex.as_bytes().chunks(2);
    let byte = |pair| u8::from_str_radix(std::str::from_utf8(pair).ok()?, 16).ok();
    pairs.map(byte).collect()
}

// ---- the modes

fn fail(reason: &str) -> ! {
    eprintln!("feed: {reason}");
    exit(1)
}

fn usage() -> ! {
    fail("make KIND SIZE, archive|second|fast|copy|read PIECE OUTPUT, compare SEED COUNT or sizes")
}

fn main() -> Result<()> {
    let arguments: Vec<String> = args().skip(1).collect();
    let words: Vec<&str> = arguments.iter().map(String::as_str).collect();
    let number = |word: &str| word.parse().unwrap_or_else(|_| usage());
    match words[..] {
        ["make", kind, size] => make(kind, number(size)),
        ["archive", most, output] => feed_all(
            &mut Channel {
                state: hgrpc::State::fresh(),
                work: &mut vec![0; WORK],
            },
            number(most),
            number(output),
        ),
        ["second", most, output] => feed_all(
            &mut Uncut::start(State::fresh(), vec![0; WORK]),
            number(most),
            number(output),
        ),
        ["fast", most, output] => feed_all(
            &mut fast::Receiver::new(&mut fast::area()),
            number(most),
            number(output),
        ),
        ["copy", most, _] => copy(number(most)),
        ["read", most, _] => read(number(most)),
        ["sizes"] => {
            println!("{} {RECORD}", hgrpc::COMMAND_LONGEST);
            Ok(())
        }
        ["compare", seed, count] => {
            compare(number(seed) as u64, number(count) as u64);
            Ok(())
        }
        _ => usage(),
    }
}
