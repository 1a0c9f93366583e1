//! Runs the programs as users do, for what no proof covers.
//!
//!     programs pieces PROGRAM FILE         PROGRAM reads FILE in pieces of every size
//!     programs samples PROGRAM FILE..      PROGRAM is `receive`, held to the second implementation on these captures
//!     programs captures PROGRAM SEED COUNT the same on generated captures
//!     programs board PROGRAM FILE..        PROGRAM is the board of examples/, on these captures
//!     programs boards PROGRAM SEED COUNT   the same on generated captures
//!     programs garbled SEED COUNT          prints lines of `replay`, many of them damaged
//!
//! A piece is what one read of the program gets. A pipe joins what is
//! written to it, so the pieces come through a socket that keeps them apart;
//! an empty one stands for the end.

#[path = "programs/board.rs"]
mod board;
#[path = "programs/tally.rs"]
mod tally;

use generate::Random;
use std::fs;
use std::io::{stdout, Read, Result, Write};
use std::os::fd::OwnedFd;
use std::os::unix::net::UnixDatagram;
use std::process::{exit, Command, Stdio};
use std::thread;
use tally::Tally;

/// The most bytes that the programs ask of one read.
const LARGEST: usize = 65_536;

/// What the program writes, if the input comes in these pieces.
fn run<'b>(program: &str, pieces: impl Iterator<Item = &'b [u8]>) -> Result<Vec<u8>> {
    let (ours, theirs) = UnixDatagram::pair()?;
    let mut child = Command::new(program)
        .stdin(Stdio::from(OwnedFd::from(theirs)))
        .stdout(Stdio::piped())
        .spawn()?;
    let mut output = child.stdout.take().expect("a pipe was asked for");
    let reader = thread::spawn(move || {
        let mut text = Vec::new();
        output.read_to_end(&mut text).map(|_| text)
    });
    for piece in pieces.chain([&b""[..]]) {
        // A program that has ended takes no more.
        if ours.send(piece).is_err() {
            break;
        }
    }
    let status = child.wait()?;
    if !status.success() {
        fail(&format!("{program} ended with {status}"));
    }
    reader.join().expect("the reader does not panic")
}

/// Each size up to the file's own, or up to 300 and then some more.
fn pieces(program: &str, file: &str) -> Result<()> {
    let bytes = fs::read(file)?;
    let length = bytes.len();
    let whole = run(program, bytes.chunks(LARGEST))?;
    let larger = (0..)
        .map(|power| 307 << power)
        .take_while(|size| *size < length);
    let mut count = 0;
    for size in (1..=length.min(300)).chain(larger.filter(|size| *size <= LARGEST)) {
        if run(program, bytes.chunks(size))? != whole {
            fail(&format!(
                "{program} writes something else in pieces of {size}"
            ));
        }
        count += 1;
    }
    if whole.is_empty() {
        fail(&format!("{program} writes nothing on {file}"));
    }
    println!("programs: {program} in pieces of {count} sizes, each time the same");
    Ok(())
}

/// The meaning of a number, from the table of the rules.
fn words(number: u8) -> String {
    let rules = include_str!("../docs/RULES.md");
    let row = rules
        .lines()
        .find_map(|line| line.strip_prefix(&format!("| {number} | ")));
    let meaning = row
        .and_then(|row| row.strip_suffix(" |"))
        .expect("a row of the table");
    // Row 25 goes on from row 24.
    meaning.replace(
        "it isn't a command map",
        "whole command isn't a command map",
    )
}

/// What `receive` writes of a capture in pieces of a size. It is what the
/// second implementation has.
fn received(program: &str, capture: &[u8], size: usize, name: &str) -> Result<String> {
    let text = run(program, capture.chunks(size))?;
    let text = String::from_utf8(text).expect("the program writes text");
    let wanted = second::capture::lines(capture, words);
    if text != wanted {
        fail(&format!(
            "{name} in pieces of {size}:\n{text}and not\n{wanted}"
        ));
    }
    Ok(text)
}

fn samples(program: &str, files: &[&str]) -> Result<()> {
    for file in files {
        received(program, &fs::read(file)?, LARGEST, file)?;
    }
    println!(
        "programs: {} samples, each as the second implementation has it",
        files.len()
    );
    Ok(())
}

fn captures(program: &str, seed: u64, count: u64) -> Result<()> {
    let mut tally = Tally::default();
    for index in 0..count {
        let capture = generate::capture(seed, index);
        let random = &mut Random::new(index);
        let size = random.pick(&[1, 2, 3, 7, 8, 9, 50, 1000, LARGEST]);
        let name = format!("seed {seed}, capture {index}");
        tally.add(&received(program, &capture, size, &name)?);
    }
    if let Err(reason) = tally.check() {
        fail(&reason);
    }
    println!(
        "programs: {count} captures, {} lines, each as the second implementation has it",
        tally.lines()
    );
    Ok(())
}

fn garbled(seed: u64, count: u64) -> Result<()> {
    let mut output = stdout().lock();
    for index in 0..count {
        output.write_all(&generate::garbled(seed, index))?;
    }
    // The last line has no line end.
    output.write_all(b"state")
}

fn fail(reason: &str) -> ! {
    println!("programs: {reason}");
    exit(1)
}

fn main() -> Result<()> {
    let arguments: Vec<String> = std::env::args().skip(1).collect();
    let words: Vec<&str> = arguments.iter().map(String::as_str).collect();
    let number = |word: &str| word.parse().expect("a number");
    match words[..] {
        ["pieces", program, file] => pieces(program, file),
        ["samples", program, ref files @ ..] if !files.is_empty() => samples(program, files),
        ["captures", program, seed, count] => captures(program, number(seed), number(count)),
        ["board", program, ref files @ ..] if !files.is_empty() => board::samples(program, files),
        ["boards", program, seed, count] => board::captures(program, number(seed), number(count)),
        ["garbled", seed, count] => garbled(number(seed), number(count)),
        _ => fail("pieces, samples, captures, board, boards or garbled, and the words behind it"),
    }
}
