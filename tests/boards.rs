//! Commands for a board, for the second implementation and for others.
//!
//!     boards make SEED COUNT     prints the lines of COUNT commands and of the coils after each
//!     boards check SEED COUNT    has the second board do them, and counts what they meet
//!
//! `check` fails if one of the things it counts comes up in less than one of 200
//! commands.

#[path = "counts.rs"]
mod counts;
#[path = "boards/coverage.rs"]
mod coverage;
#[path = "boards/reasons.rs"]
mod reasons;

use coverage::Coverage;
use second::board::Board;
use std::io::{stdout, BufWriter, Result, Write};
use std::process::exit;

fn make(seed: u64, count: u64) -> Result<()> {
    let mut output = BufWriter::new(stdout().lock());
    for index in 0..count {
        for line in generate::board_step(seed, index).lines() {
            writeln!(output, "{line}")?;
        }
    }
    output.flush()
}

fn check(seed: u64, count: u64) {
    let mut coverage = Coverage::new();
    let mut board = Board::first();
    for index in 0..count {
        let step = generate::board_step(seed, index);
        if step.anew {
            board = Board::first();
        }
        let before = board.clone();
        let number = board.apply(&step.command);
        if number != 0 && board != before {
            fail(&format!(
                "seed {seed}, command {index}: {number}, and the board changed"
            ));
        }
        coverage.command(&step.command, number, &before, &board);
    }
    coverage.print();
    if let Some(name) = coverage.rare(count) {
        fail(&format!(
            "\"{name}\" came up too seldom in {count} commands"
        ));
    }
    println!("boards: {count} commands, and each refused one leaves the board");
}

fn fail(reason: &str) -> ! {
    println!("boards: {reason}");
    exit(1)
}

fn main() -> Result<()> {
    let arguments: Vec<String> = std::env::args().skip(1).collect();
    let words: Vec<&str> = arguments.iter().map(String::as_str).collect();
    let number = |word: &str| word.parse().expect("a number");
    match words[..] {
        ["make", seed, count] => make(number(seed), number(count))?,
        ["check", seed, count] => check(number(seed), number(count)),
        _ => fail("make SEED COUNT or check SEED COUNT"),
    }
    Ok(())
}
