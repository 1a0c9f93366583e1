//! Compares the calls of the command archive, as include/command.h has them,
//! with the second implementation.
//!
//!     desk COMMANDS SEED

use generate::Case;
use second::command;
use std::collections::BTreeSet;
use std::process::exit;

type Lookup<T> = unsafe extern "C" fn(*const u8, usize, *const u8, usize) -> T;

extern "C" {
    fn command_check(command: *const u8, length: usize) -> u32;
    fn command_argument_count(command: *const u8, length: usize) -> u64;
    fn command_loose(command: *const u8, length: usize) -> u32;
    fn command_argument_number(c: *const u8, n: usize, key: *const u8, size: usize) -> u32;
    fn command_integer_number(c: *const u8, n: usize, key: *const u8, size: usize) -> u32;
    fn command_integer(c: *const u8, n: usize, key: *const u8, size: usize) -> i64;
}

fn check(command: &[u8]) -> u32 {
    // The pointer comes with its own length.
    unsafe { command_check(command.as_ptr(), command.len()) }
}

fn count(command: &[u8]) -> u64 {
    // The pointer comes with its own length.
    unsafe { command_argument_count(command.as_ptr(), command.len()) }
}

fn loose(command: &[u8]) -> u32 {
    // The pointer comes with its own length.
    unsafe { command_loose(command.as_ptr(), command.len()) }
}

fn look_up<T>(call: Lookup<T>, Case { command, key }: &Case) -> T {
    // Each pointer comes with its own length.
    unsafe { call(command.as_ptr(), command.len(), key.as_ptr(), key.len()) }
}

#[derive(Debug, PartialEq)]
struct Answers {
    check: u32,
    argument: u32,
    integer: u32,
    value: i64,
    count: u64,
    loose: u32,
}

fn archive_answers(case: &Case) -> Answers {
    Answers {
        check: check(&case.command),
        argument: look_up(command_argument_number, case),
        integer: look_up(command_integer_number, case),
        value: look_up(command_integer, case),
        count: count(&case.command),
        loose: loose(&case.command),
    }
}

fn second_answers(Case { command, key }: &Case) -> Answers {
    Answers {
        check: command::check(command),
        argument: command::argument_number(command, key),
        integer: command::integer_number(command, key),
        value: command::integer(command, key),
        count: command::argument_count(command),
        loose: command::loose(command).into(),
    }
}

fn fail(reason: &str) -> ! {
    println!("desk (Rust): {reason}");
    exit(1)
}

fn main() {
    let argument = |place| std::env::args().nth(place)?.parse::<u64>().ok();
    let (Some(commands), Some(seed)) = (argument(1), argument(2)) else {
        fail("COMMANDS SEED");
    };
    let (mut met, mut accepted) = (BTreeSet::new(), BTreeSet::new());
    for index in 0..commands {
        let case = generate::case(seed, index);
        let (archive, second) = (archive_answers(&case), second_answers(&case));
        if archive != second {
            fail(&format!(
                "difference at seed {seed}, index {index}: {archive:?}, not {second:?}"
            ));
        }
        met.insert(archive.integer);
        if archive.check == 0 {
            accepted.insert(archive.loose);
        }
    }
    if met != BTreeSet::from([0, 6, 7, 8, 24, 25, 26]) {
        fail(&format!("only {met:?} came up"));
    }
    if accepted != BTreeSet::from([0, 1]) {
        fail(&format!("only loose {accepted:?} came up"));
    }
    println!("desk (Rust): {commands} commands, no difference");
}
