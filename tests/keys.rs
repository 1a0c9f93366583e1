//! Commands made for the search for double keys.
//!
//!     keys run SEED COUNT     compares the archive with the second implementation
//!     keys make SEED COUNT    prints the lines `check` of COUNT commands
//!
//! `run` also counts what the commands meet, and fails if something that it
//! counts comes up too seldom.

#[path = "counts.rs"]
mod counts;
#[path = "keys/coverage.rs"]
mod coverage;
#[path = "keys/names.rs"]
mod names;
#[path = "keys/near.rs"]
mod near;
#[path = "keys/view.rs"]
mod view;

use coverage::Coverage;
use generate::{key_command, Case};
use second::command;
use second::replay::to_hex;
use second::value::is_loose;
use std::io::{stdout, BufWriter, Result, Write};
use std::process::exit;

/// The check's number, the number of arguments, whether the command is loose, and
/// an integer or its number.
type Answers = (u32, u64, bool, std::result::Result<i64, u32>);

fn archive_answers(Case { command, key }: &Case) -> Answers {
    (
        hgrpc::check(command),
        hgrpc::argument_count(command),
        hgrpc::loose(command),
        hgrpc::integer(command, key),
    )
}

/// A command is read once, for some are long.
fn second_answers(Case { command, key }: &Case) -> Answers {
    match command::read(command) {
        Err(refusal) => (refusal.number(), 0, false, Err(refusal.number())),
        Ok(read) => (
            0,
            read.args.as_ref().map_or(0, |args| args.len() as u64),
            is_loose(command),
            read.integer(key).map_err(command::Refusal::number),
        ),
    }
}

fn run(seed: u64, count: u64) {
    let mut coverage = Coverage::new();
    for index in 0..count {
        let case = key_command(seed, index);
        let (archive, second) = (archive_answers(&case), second_answers(&case));
        if archive != second {
            println!("command {}", to_hex(&case.command));
            fail(&format!(
                "difference at seed {seed}, index {index}: {archive:?}, not {second:?}"
            ));
        }
        coverage.command(&case.command, archive.0);
    }
    coverage.print();
    if let Some(name) = coverage.rare(count) {
        fail(&format!(
            "\"{name}\" came up too seldom in {count} commands"
        ));
    }
    println!("keys: {count} commands, no difference");
}

fn make(seed: u64, count: u64) -> Result<()> {
    let mut output = BufWriter::new(stdout().lock());
    for index in 0..count {
        writeln!(
            output,
            "check {}",
            to_hex(&key_command(seed, index).command)
        )?;
    }
    output.flush()
}

fn fail(reason: &str) -> ! {
    println!("keys: {reason}");
    exit(1)
}

fn main() -> Result<()> {
    let arguments: Vec<String> = std::env::args().skip(1).collect();
    let words: Vec<&str> = arguments.iter().map(String::as_str).collect();
    let number = |word: &str| word.parse().expect("a number");
    match words[..] {
        ["run", seed, count] => run(number(seed), number(count)),
        ["make", seed, count] => make(number(seed), number(count))?,
        _ => fail("run SEED COUNT or make SEED COUNT"),
    }
    Ok(())
}
