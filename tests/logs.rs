//! Stored logs, and their conversion.
//!
//!     logs make SEED COUNT          prints the lines of COUNT conversions
//!     logs check SEED COUNT         converts them by the second implementation, counts what they meet, and reads
//!                                   each converted log again
//!     logs old SEED COUNT           writes the whole ones of COUNT logs, joined, as a stored log
//!     logs broken SEED INDEX        writes the log of this index, whole or not
//!     logs convert                  reads a stored log, writes its whole records as the program `convert` does, and on
//!                                   standard error where the log is broken
//!
//! `check` fails if one of the things it counts comes up less than 20 times.

#[path = "logs/coverage.rs"]
mod coverage;

use coverage::Coverage;
use second::log::{convert, read, whole, write, Log, NEW, OLD};
use std::io::{stdin, stdout, BufWriter, Read, Result, Write};
use std::process::exit;

fn make(seed: u64, count: u64) -> Result<()> {
    let mut output = BufWriter::new(stdout().lock());
    for index in 0..count {
        for line in generate::conversion(seed, index).lines() {
            writeln!(output, "{line}")?;
        }
    }
    output.flush()
}

/// Reading a converted log gives the old log's kinds and bodies in order.
fn check(seed: u64, count: u64) {
    let mut coverage = Coverage::new();
    for index in 0..count {
        let asked = generate::conversion(seed, index);
        let mut output = vec![0; asked.output];
        let answer = convert(&asked.log, &mut output);
        let old = read(&asked.log, OLD);
        coverage.add(&asked, &old, answer.number);
        if answer.number == 0 && read(&output[..answer.written], NEW) != old {
            fail(&format!("seed {seed}, log {index}: other records"));
        }
    }
    coverage.print();
    if let Some((name, times)) = coverage.rare() {
        fail(&format!(
            "\"{name}\" came up {times} times in {count} logs, too seldom"
        ));
    }
    println!("logs: {count} logs, each converted one with the old one's records");
}

fn old(seed: u64, count: u64) -> Result<()> {
    let mut output = BufWriter::new(stdout().lock());
    for index in 0..count {
        let log = generate::conversion(seed, index).log;
        if whole(&log) == log.len() {
            output.write_all(&log)?;
        }
    }
    output.flush()
}

fn convert_all() -> Result<()> {
    let mut bytes = Vec::new();
    stdin().lock().read_to_end(&mut bytes)?;
    let Log { records, broken } = read(&bytes, OLD);
    stdout().lock().write_all(&write(&records))?;
    if !broken.is_empty() {
        eprintln!("broken at byte {}", bytes.len() - broken.len());
        exit(1);
    }
    Ok(())
}

fn fail(reason: &str) -> ! {
    println!("logs: {reason}");
    exit(1)
}

fn main() -> Result<()> {
    let arguments: Vec<String> = std::env::args().skip(1).collect();
    let words: Vec<&str> = arguments.iter().map(String::as_str).collect();
    let number = |word: &str| word.parse().expect("a number");
    match words[..] {
        ["make", seed, count] => make(number(seed), number(count)),
        ["check", seed, count] => {
            check(number(seed), number(count));
            Ok(())
        }
        ["old", seed, count] => old(number(seed), number(count)),
        ["broken", seed, index] => {
            let log = generate::conversion(number(seed), number(index)).log;
            stdout().lock().write_all(&log)
        }
        ["convert"] => convert_all(),
        _ => {
            fail("make SEED COUNT, check SEED COUNT, old SEED COUNT, broken SEED INDEX or convert")
        }
    }
}
