//! Pairs of logs, and their comparison.
//!
//!     pairs make SEED COUNT               prints the lines of COUNT comparisons
//!     pairs check SEED COUNT              compares them by the second implementation, and counts what they meet
//!     pairs write SEED INDEX LOG1 LOG2    writes the pair of this index to two files
//!     pairs long SEED COUNT LOG1 LOG2     writes the whole ones of COUNT pairs, joined, to two files
//!     pairs lines LOG1 LOG2               reads two files, and writes what the program `logdiff` does
//!
//! `check` fails if one of the things it counts comes up less than 10 times, or if the list is empty where the logs
//! are not equal.

#[path = "pairs/coverage.rs"]
mod coverage;

use coverage::Coverage;
use second::differences::{compare, lines};
use second::log::{read, NEW};
use std::fs::{self, File};
use std::io::{stdout, BufWriter, Result, Write};
use std::process::exit;

fn make(seed: u64, count: u64) -> Result<()> {
    let mut output = BufWriter::new(stdout().lock());
    for index in 0..count {
        writeln!(output, "{}", generate::pair(seed, index).line())?;
    }
    output.flush()
}

/// The list is empty exactly for equal logs.
fn check(seed: u64, count: u64) -> Result<()> {
    let mut coverage = Coverage::new();
    for index in 0..count {
        let pair = generate::pair(seed, index);
        let answer = compare(&pair.first, &pair.second);
        let empty = answer.as_ref().map(Vec::is_empty);
        if empty.is_ok_and(|empty| empty != (pair.first == pair.second)) {
            fail(&format!("seed {seed}, pair {index}: a list is wrong"));
        }
        coverage.add(&pair, &answer);
    }
    coverage.print();
    if let Some((name, times)) = coverage.rare() {
        fail(&format!(
            "\"{name}\" came up {times} times in {count} pairs, too seldom"
        ));
    }
    println!("pairs: {count} pairs, with an empty list where they are equal");
    Ok(())
}

/// Of the whole pairs those whose logs have as many records, so that records of one pair stand against each other.
fn long(seed: u64, count: u64, names: [&str; 2]) -> Result<()> {
    let [mut first, mut second] = [
        BufWriter::new(File::create(names[0])?),
        BufWriter::new(File::create(names[1])?),
    ];
    for index in 0..count {
        let pair = generate::pair(seed, index);
        let logs = [&pair.first, &pair.second].map(|log| read(log, NEW));
        let whole = logs.iter().all(|log| log.broken.is_empty());
        if whole && logs[0].records.len() == logs[1].records.len() {
            first.write_all(&pair.first)?;
            second.write_all(&pair.second)?;
        }
    }
    first.flush()?;
    second.flush()
}

fn fail(reason: &str) -> ! {
    println!("pairs: {reason}");
    exit(1)
}

fn main() -> Result<()> {
    let arguments: Vec<String> = std::env::args().skip(1).collect();
    let words: Vec<&str> = arguments.iter().map(String::as_str).collect();
    let number = |word: &str| word.parse().expect("a number");
    match words[..] {
        ["make", seed, count] => make(number(seed), number(count)),
        ["check", seed, count] => check(number(seed), number(count)),
        ["write", seed, index, first, second] => {
            let pair = generate::pair(number(seed), number(index));
            fs::write(first, pair.first).and_then(|()| fs::write(second, pair.second))
        }
        ["long", seed, count, first, second] => long(number(seed), number(count), [first, second]),
        ["lines", first, second] => {
            let [first, second] = [first, second].map(|name| fs::read(name).ok());
            let text = lines(first.as_deref(), second.as_deref());
            stdout().lock().write_all(text.as_bytes())
        }
        _ => fail("make SEED COUNT, check SEED COUNT, write SEED INDEX LOG1 LOG2, long SEED COUNT LOG1 LOG2 or lines LOG1 LOG2"),
    }
}
