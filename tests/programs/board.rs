//! The board of examples/, held to what the second implementation reads of the
//! same bytes.

use crate::fail;
use second::board::Board;
use second::capture::{byte_string, Record};
use second::command;
use second::frame::RECORD;
use second::receiver::Receiver;
use second::state::{Phase, State, WORK};
use std::collections::BTreeMap;
use std::fs;
use std::io::{Result, Write};
use std::process::{Command, Stdio};

/// Parts of what is printed of a command and of a slot, and how often each must come up.
const KINDS: [&str; 9] = [
    "  refused 40:",
    "  refused 41:",
    "  refused 42:",
    "  refused 43:",
    "; its data is drained",
    "  coil ",
    ", collecting",
    ", waiting",
    ", draining",
];
const LEAST: usize = 20;

/// The bytes that the board reads at a time, in turn.
const PIECES: [usize; 3] = [3, 9, 0];

/// The meaning of a number, from the table of the header.
fn words(number: u32) -> &'static str {
    let header = include_str!("../../include/hgrpc.h");
    let mut lines = header.lines();
    let row = lines.find_map(|line| line.strip_prefix(&format!(" *   {number}  ")));
    row.expect("a row of the table")
}

/// What the board prints of a record, and whether it refuses the command.
fn printed(record: &Record, board: &mut Board) -> (String, bool) {
    let (request, bit) = (record.request, record.bit == 1);
    if !record.is_command {
        let last = if bit { ", the last" } else { "" };
        let text = format!("data {request}: {} bytes{last}\n", record.content.len());
        return (text, false);
    }
    let name = byte_string(command::name(record.content));
    let follows = if bit { ", data follows" } else { "" };
    let mut text = format!("command {request}: {name}{follows}\n");
    let before = board.clone();
    let number = board.apply(record.content);
    if number != 0 {
        let drained = if bit { "; its data is drained" } else { "" };
        text += &format!("  refused {number}: {}{drained}\n", words(number));
    }
    for (number, (old, new)) in before.coils.iter().zip(&board.coils).enumerate() {
        if (old.on, &old.label) != (new.on, &new.label) {
            let switch = if new.on { "on" } else { "off" };
            let label = match &new.label[..] {
                [] => "no label".to_string(),
                label => format!("label {}", byte_string(label)),
            };
            text += &format!("  coil {number}: {switch}, {label}\n");
        }
    }
    (text, number != 0)
}

/// The second implementation in the board's place.
struct Site {
    receiver: Receiver,
    output: Vec<u8>,
    board: Board,
    text: String,
}

impl Site {
    /// The number of a piece. The output has room for one record, which is done before
    /// the rest is offered. A request that runs is finished then, and so is one that is
    /// refused, whose data is drained.
    fn piece(&mut self, mut piece: &[u8]) -> u8 {
        loop {
            let fed = self.receiver.feed(piece, &mut self.output);
            if fed.written > 0 {
                let record = Record::read(&self.output[..fed.written]);
                let (text, refused) = printed(&record, &mut self.board);
                self.text += &text;
                if refused || record.is_last() {
                    self.receiver.finish(record.request);
                }
            }
            if fed.number != 5 {
                return fed.number;
            }
            piece = &piece[fed.taken..];
        }
    }

    /// The slots that are in use at the end.
    fn active(&mut self) {
        let state = self.receiver.state();
        if state.count > 0 {
            self.text += &format!("active: {}\n", state.count);
        }
        for (place, slot) in state.slots.iter().enumerate() {
            let phase = match slot.phase {
                Phase::Free => continue,
                Phase::Collecting => "collecting",
                Phase::Waiting => "waiting",
                Phase::Running => "running",
                Phase::Draining => "draining",
            };
            self.text += &format!("  slot {place}: request {}, {phase}\n", slot.id);
        }
    }
}

/// What the board prints of a capture, and whether it refuses the capture.
fn wanted(mut capture: &[u8]) -> (String, bool) {
    let mut site = Site {
        receiver: Receiver::start(State::fresh(), vec![0; WORK]),
        output: vec![0; RECORD],
        board: Board::first(),
        text: String::new(),
    };
    let mut number = 0;
    let mut sizes = PIECES.into_iter().cycle();
    while number == 0 && !capture.is_empty() {
        let size = sizes.next().unwrap_or_default().min(capture.len());
        number = site.piece(&capture[..size]);
        capture = &capture[size..];
    }
    if number != 0 {
        site.text += &format!("refused {number}: the channel is dead\n");
    }
    site.active();
    (site.text, number != 0)
}

/// Runs the board on a capture. It stops at a refusal, so that it may not read
/// all that is written to it.
fn run(program: &str, capture: &[u8]) -> Result<(Vec<u8>, Option<i32>)> {
    let mut child = Command::new(program)
        .stdin(Stdio::piped())
        .stdout(Stdio::piped())
        .spawn()?;
    let mut input = child.stdin.take().expect("a pipe was asked for");
    let _stopped = input.write_all(capture);
    drop(input);
    let output = child.wait_with_output()?;
    Ok((output.stdout, output.status.code()))
}

/// What the board prints of a capture, which is what the second implementation
/// has, and whether it refused the capture.
fn compare(program: &str, capture: &[u8], name: &str) -> Result<(String, bool)> {
    let (wanted, refused) = wanted(capture);
    let (text, status) = run(program, capture)?;
    if text != wanted.as_bytes() || status != Some(refused.into()) {
        let text = String::from_utf8_lossy(&text);
        fail(&format!(
            "{name}: status {status:?}\n{text}and not\n{wanted}"
        ));
    }
    Ok((wanted, refused))
}

pub fn samples(program: &str, files: &[&str]) -> Result<()> {
    for file in files {
        compare(program, &fs::read(file)?, file)?;
    }
    let count = files.len();
    println!("programs: the board on {count} samples, each as the second implementation has it");
    Ok(())
}

pub fn captures(program: &str, seed: u64, count: u64) -> Result<()> {
    let mut refused = 0;
    let mut kinds: BTreeMap<&str, usize> = BTreeMap::new();
    for index in 0..count {
        let name = format!("seed {seed}, capture {index}");
        let (any, dead) = compare(program, &generate::capture(seed, index), &name)?;
        refused += u64::from(dead);
        let name = format!("seed {seed}, capture {index} for a board");
        let (own, _) = compare(program, &generate::board_capture(seed, index), &name)?;
        for kind in KINDS {
            let lines = own.lines().chain(any.lines());
            *kinds.entry(kind).or_default() += lines.filter(|line| line.contains(kind)).count();
        }
    }
    if refused < count / 4 || refused > count * 3 / 4 {
        fail(&format!("{refused} of {count} captures are refused"));
    }
    if let Some((kind, times)) = kinds.iter().find(|(_, times)| **times < LEAST) {
        fail(&format!(
            "\"{kind}\" came up {times} times, less than {LEAST}"
        ));
    }
    println!("programs: the board on {count} captures, {refused} of them refused, and on {count} with its commands, each as the second implementation has it");
    Ok(())
}
