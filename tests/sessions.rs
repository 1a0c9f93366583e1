//! Sessions of the channel, for the second implementation and for others.
//!
//!     sessions make SEED COUNT      prints the lines of COUNT sessions
//!     sessions drains SEED COUNT    prints those of COUNT sessions of the kind that drains
//!     sessions check SEED COUNT     runs them in the second receiver and holds each against the uncut reading
//!     sessions traces [PROGRAM]     the papers' traces, through the lines, by the second receiver or by PROGRAM
//!     sessions commands SEED COUNT  prints the lines of the calls on COUNT commands
//!
//! `check` also counts what the sessions meet, and fails if one of the
//! things it counts comes up less than 20 times; of a count that is one too
//! high or one too low, less than 100 times; of data of 4,097 to 65,535 bytes,
//! less than 200 times.

#[path = "sessions/counts.rs"]
mod counts;
#[path = "sessions/coverage.rs"]
mod coverage;
#[path = "sessions/drain_traces.rs"]
mod drain_traces;
#[path = "sessions/drains.rs"]
mod drains;
#[path = "sessions/lamps.rs"]
mod lamps;
#[path = "sessions/traces.rs"]
mod traces;
#[path = "sessions/watch.rs"]
mod watch;

use coverage::Coverage;
use second::replay::to_hex;
use std::io::{stdout, BufWriter, Result, Write};
use std::process::exit;
use watch::Watch;

fn make(sessions: impl Iterator<Item = Vec<String>>) -> Result<()> {
    let mut output = BufWriter::new(stdout().lock());
    for line in sessions.flatten() {
        writeln!(output, "{line}")?;
    }
    output.flush()
}

fn commands(seed: u64, count: u64) -> Result<()> {
    let mut output = BufWriter::new(stdout().lock());
    for index in 0..count {
        let case = generate::case(seed, index);
        let (command, key) = (to_hex(&case.command), to_hex(&case.key));
        for call in ["check", "name", "count", "loose"] {
            writeln!(output, "{call} {command}")?;
        }
        writeln!(output, "arg {command} {key}\nint {command} {key}")?;
    }
    output.flush()
}

fn check(seed: u64, count: u64) {
    let mut coverage = Coverage::new();
    let mut watch = Watch::default();
    let mut lines = 0;
    for index in 0..count {
        for (place, line) in (1..).zip(generate::session(seed, index)) {
            lines += 1;
            if let Err(reason) = watch.line(&line, &mut coverage) {
                let asked: String = line.chars().take(60).collect();
                fail(&format!(
                    "seed {seed}, session {index}, line {place} ({asked}): {reason}"
                ));
            }
        }
    }
    coverage.print();
    if let Some((name, times, least)) = coverage.rare() {
        fail(&format!(
            "\"{name}\" came up {times} times in {count} sessions, less than {least}"
        ));
    }
    println!("sessions: {count} sessions, {lines} lines, each session as the uncut reading");
}

fn fail(reason: &str) -> ! {
    println!("sessions: {reason}");
    exit(1)
}

fn main() -> Result<()> {
    let arguments: Vec<String> = std::env::args().skip(1).collect();
    let words: Vec<&str> = arguments.iter().map(String::as_str).collect();
    let number = |word: &str| word.parse().expect("a number");
    match words[..] {
        ["make", seed, count] => {
            let seed = number(seed);
            make((0..number(count)).map(|index| generate::session(seed, index)))?
        }
        ["drains", seed, count] => {
            let seed = number(seed);
            make((0..number(count)).map(|index| generate::drain_session(seed, index)))?
        }
        ["check", seed, count] => check(number(seed), number(count)),
        ["traces"] => traces::run(None)?,
        ["traces", program] => traces::run(Some(program))?,
        ["commands", seed, count] => commands(number(seed), number(count))?,
        _ => fail("make, drains, check or commands, SEED and COUNT, or traces [PROGRAM]"),
    }
    Ok(())
}
