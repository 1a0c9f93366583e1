//! Requests to be sent, for the second implementation and for others.
//!
//!     sends make SEED COUNT     prints the lines of COUNT requests
//!     sends check SEED COUNT    sends them by the second sender, and has the second receiver read what it wrote
//!
//! `check` also counts what the requests meet, and fails if one of the things
//! it counts comes up in less than one of 500 requests, or a number in less than
//! one of 50.

#[path = "counts.rs"]
mod counts;
#[path = "sends/coverage.rs"]
mod coverage;
#[path = "sends/reading.rs"]
mod reading;

use coverage::Coverage;
use generate::Sending;
use second::replay::{from_hex, Replay};
use second::sender::Request;
use std::io::{stdout, BufWriter, Result, Write};
use std::process::exit;

fn make(seed: u64, count: u64) -> Result<()> {
    let mut output = BufWriter::new(stdout().lock());
    for index in 0..count {
        let line = generate::sending(seed, index).line();
        writeln!(output, "{line}\ntail")?;
    }
    output.flush()
}

/// The same request for the second sender.
fn request(sending: &Sending) -> Request<'_> {
    Request {
        name: &sending.name,
        pairs: &sending.pairs,
        count: sending.count,
        id: sending.request,
        stream: sending.stream,
        begin: sending.begin,
        end: sending.end,
        size: sending.size,
        data: sending.data.as_deref(),
    }
}

/// The number and the bytes of an answer `sent`.
fn answered(answer: &str) -> Option<(u8, Vec<u8>)> {
    let words: Vec<&str> = answer.split(' ').collect();
    let ["sent", number, written, frames] = words[..] else {
        return None;
    };
    let frames = from_hex(frames)?;
    (written.parse() == Ok(frames.len())).then_some((number.parse().ok()?, frames))
}

fn check(seed: u64, count: u64) {
    let mut coverage = Coverage::new();
    let mut replay = Replay::default();
    let mut bytes = 0;
    for index in 0..count {
        let sending = generate::sending(seed, index);
        let answer = replay.answer(sending.line().as_bytes());
        let answer = answer.as_deref().and_then(answered);
        let (number, frames) = answer.expect("the line is answered");
        let kept = replay.answer(b"tail").as_deref() == Some("tail kept");
        let request = request(&sending);
        let read = match number {
            0 => reading::read(&request, &frames),
            _ if !frames.is_empty() => Err("a refused request wrote something".to_string()),
            _ => Ok(()),
        };
        if let Err(reason) = read.and(kept.then_some(()).ok_or("output changed".to_string())) {
            fail(&format!("seed {seed}, request {index}: {reason}"));
        }
        coverage.request(&sending, &request, number, &frames);
        bytes += frames.len();
    }
    coverage.print();
    if let Some(name) = coverage.rare(count) {
        fail(&format!(
            "\"{name}\" came up too seldom in {count} requests"
        ));
    }
    println!("sends: {count} requests, {bytes} bytes sent, each as the second receiver reads it");
}

fn fail(reason: &str) -> ! {
    println!("sends: {reason}");
    exit(1)
}

fn main() -> Result<()> {
    let arguments: Vec<String> = std::env::args().skip(1).collect();
    let words: Vec<&str> = arguments.iter().map(String::as_str).collect();
    let number = |word: &str| word.parse().expect("a number");
    match words[..] {
        ["make", seed, count] => make(number(seed), number(count))?,
        ["check", seed, count] => check(number(seed), number(count)),
        _ => fail("make SEED COUNT or check SEED COUNT"),
    }
    Ok(())
}
