//! Compares the archive's calls on commands with the second implementation.
//!
//!     compare [commands [seed]]
//!
//! It also counts what the commands meet, and fails if something that it counts
//! comes up too seldom.

#[path = "counts.rs"]
mod counts;
#[path = "compare/loose.rs"]
mod loose;

use generate::{fixed, Case};
use loose::Coverage;
use second::command;
use std::process::exit;

#[derive(Debug, PartialEq)]
struct Answers {
    check: u32,
    count: u64,
    loose: bool,
    name: Result<Vec<u8>, u32>,
    argument: Result<Vec<u8>, u32>,
    integer: Result<i64, u32>,
}

fn number<T>(answer: &Result<T, u32>) -> u32 {
    answer.as_ref().err().copied().unwrap_or(0)
}

/// What a call answers, if its number is 0.
fn numbered<T>(number: u32, answer: T) -> Result<T, u32> {
    match number {
        0 => Ok(answer),
        _ => Err(number),
    }
}

fn second_answers(Case { command, key }: &Case) -> Answers {
    let check = command::check(command);
    let argument = command::argument(command, key).to_vec();
    Answers {
        check,
        count: command::argument_count(command),
        loose: command::loose(command),
        name: numbered(check, command::name(command).to_vec()),
        argument: numbered(command::argument_number(command, key), argument),
        integer: numbered(
            command::integer_number(command, key),
            command::integer(command, key),
        ),
    }
}

/// The archive's answers, on buffers of exactly the right size.
fn archive_answers(case: &Case) -> Answers {
    let command: Box<[u8]> = case.command.as_slice().into();
    let key: Box<[u8]> = case.key.as_slice().into();
    let answers = Answers {
        check: hgrpc::check(&command),
        count: hgrpc::argument_count(&command),
        loose: hgrpc::loose(&command),
        name: hgrpc::name(&command).map(<[u8]>::to_vec),
        argument: hgrpc::argument(&command, &key).map(<[u8]>::to_vec),
        integer: hgrpc::integer(&command, &key),
    };
    if *command != *case.command || *key != *case.key {
        fail(case, "the lent bytes were changed");
    }
    answers
}

fn fail(case: &Case, reason: &str) -> ! {
    println!("compare (Rust): {reason}");
    println!("command {}", hex(&case.command));
    println!("key     {}", hex(&case.key));
    exit(1)
}

fn hex(bytes: &[u8]) -> String {
    bytes.iter().map(|byte| format!("{byte:02x}")).collect()
}

fn compare(case: &Case, place: &str) -> Answers {
    let archive = archive_answers(case);
    let second = second_answers(case);
    if archive != second {
        fail(
            case,
            &format!("difference at {place}\narchive {archive:?}\nsecond  {second:?}"),
        );
    }
    archive
}

/// T8 to T11, with the answers that the paper gives.
fn traces() {
    let least = b"\x3b\x7f\xff\xff\xff\xff\xff\xff\xff";
    let below = b"\x3b\x80\0\0\0\0\0\0\0";
    let eight = b"\x81\x81\x81\x81\x81\x80";
    let nine = b"\x81\x81\x81\x81\x81\x81\x80";
    let empty = Case {
        command: vec![],
        key: b"k".to_vec(),
    };
    let accepted = |item: &[u8], integer| Answers {
        check: 0,
        count: 1,
        loose: false,
        name: Ok(b"set".to_vec()),
        argument: Ok(item.to_vec()),
        integer,
    };
    let with = fixed::with_argument;
    for (trace, case, expected) in [
        ("T8", with(least), accepted(least, Ok(i64::MIN))),
        ("T8", with(below), accepted(below, Err(8))),
        ("T9", with(b"\x20"), accepted(b"\x20", Ok(-1))),
        ("T10", empty, refused(24)),
        ("T11", with(eight), accepted(eight, Err(7))),
        ("T11", with(nine), refused(24)),
    ] {
        compare_to(&case, trace, &expected);
    }
}

/// The answers on a command that the check refuses.
fn refused(number: u32) -> Answers {
    Answers {
        check: number,
        count: 0,
        loose: false,
        name: Err(number),
        argument: Err(number),
        integer: Err(number),
    }
}

/// Compares, and holds the answers to those that a paper gives.
fn compare_to(case: &Case, trace: &str, expected: &Answers) {
    let answers = compare(case, trace);
    if answers != *expected {
        fail(case, &format!("{trace} is {answers:?}, not {expected:?}"));
    }
}

/// E1's commands: `args` missing, alone and beside `redirect`; no `name`;
/// and an `args` of another type.
fn without_args() {
    let name = b"\x44name\x43off";
    let accepted = || Answers {
        check: 0,
        count: 0,
        loose: false,
        name: Ok(b"off".to_vec()),
        argument: Err(6),
        integer: Err(6),
    };
    let redirected = [b"\xa2", &name[..], b"\x48redirect\xa0"].concat();
    for (command, expected) in [
        ([b"\xa1", &name[..]].concat(), accepted()),
        (redirected, accepted()),
        (b"\xa1\x44args\xa0".to_vec(), refused(25)),
        ([b"\xa2", &name[..], b"\x44args\x80"].concat(), refused(25)),
    ] {
        let key = b"k".to_vec();
        compare_to(&Case { command, key }, "E1", &expected);
    }
}

/// E5's rule at each width: the largest number that a shorter head holds, and the
/// least that it does not, as the argument; and the tag 258 in each width.
fn at_each_width() {
    let items: [(&[u8], bool); 13] = [
        (b"\x17", false),
        (b"\x18\x17", true),
        (b"\x18\x18", false),
        (b"\x19\0\xff", true),
        (b"\x19\x01\0", false),
        (b"\x1a\0\0\xff\xff", true),
        (b"\x1a\0\x01\0\0", false),
        (b"\x1b\0\0\0\0\xff\xff\xff\xff", true),
        (b"\x1b\0\0\0\x01\0\0\0\0", false),
        (b"\xf6", false),
        (b"\xd9\x01\x02\x80", false),
        (b"\xda\0\0\x01\x02\x80", true),
        (b"\xdb\0\0\0\0\0\0\x01\x02\x80", true),
    ];
    for (item, expected) in items {
        let case = fixed::with_argument(item);
        let answers = compare(&case, "E5");
        if (answers.check, answers.loose) != (0, expected) {
            fail(&case, &format!("E5 is {answers:?}"));
        }
    }
}

/// RFC 7049 writes its examples with the shortest heads.
fn published() {
    for case in fixed::published() {
        if compare(&case, "an example of RFC 7049").loose {
            fail(&case, "an example of RFC 7049 is loose");
        }
    }
}

const NUMBERS: [u32; 7] = [0, 24, 25, 26, 6, 7, 8];

/// How often a call gave each of the numbers.
struct Count {
    call: &'static str,
    /// How many of the numbers, from the first, the call can give.
    possible: usize,
    counts: [u64; 7],
}

impl Count {
    fn new(call: &'static str, possible: usize) -> Count {
        Count {
            call,
            possible,
            counts: [0; 7],
        }
    }

    fn add(&mut self, number: u32) {
        let place = NUMBERS.iter().position(|known| *known == number);
        self.counts[place.expect("a number of the table")] += 1;
    }

    fn print(&self) {
        print!("{:<24}", self.call);
        for place in 0..self.possible {
            print!("  {}: {}", NUMBERS[place], self.counts[place]);
        }
        println!();
    }

    /// The first answer given for less than one command in a hundred.
    fn rare(&self, commands: u64) -> Option<u32> {
        (0..self.possible)
            .find(|place| self.counts[*place] * 100 < commands || self.counts[*place] == 0)
            .map(|place| NUMBERS[place])
    }
}

/// The number after the program's name in this place, or `default`.
fn argument(place: usize, default: u64) -> u64 {
    std::env::args()
        .nth(place)
        .map_or(default, |text| text.parse().expect("a number"))
}

/// What the commands of a seed meet.
struct Met {
    counts: [Count; 4],
    /// How many were accepted without `args`, and how many had several arguments.
    lacking: u64,
    several: u64,
    loose: Coverage,
}

impl Met {
    fn new() -> Met {
        Met {
            counts: [
                Count::new("hgrpc_check", 4),
                Count::new("hgrpc_name", 4),
                Count::new("hgrpc_argument", 5),
                Count::new("hgrpc_integer", 7),
            ],
            lacking: 0,
            several: 0,
            loose: Coverage::new(),
        }
    }

    fn add(&mut self, command: &[u8], answers: &Answers) {
        let numbers = [
            answers.check,
            number(&answers.name),
            number(&answers.argument),
            number(&answers.integer),
        ];
        for (count, number) in self.counts.iter_mut().zip(numbers) {
            count.add(number);
        }
        self.lacking += u64::from(command::lacks_args(command));
        self.several += u64::from(answers.count > 1);
        self.loose.command(command, answers.check, answers.loose);
    }

    fn print(&self) {
        self.counts.iter().for_each(Count::print);
        println!("accepted without args    {}", self.lacking);
        println!("several arguments        {}", self.several);
        self.loose.print();
    }

    /// What came up too seldom.
    fn rare(&self, commands: u64) -> Option<String> {
        for count in &self.counts {
            if let Some(number) = count.rare(commands) {
                let call = count.call;
                return Some(format!("{call} gave {number} in less than 1%"));
            }
        }
        if self.lacking * 50 < commands || self.several * 10 < commands {
            let text =
                "accepted without args in less than 2%, or several arguments in less than 10%";
            return Some(text.to_string());
        }
        let name = self.loose.rare(commands)?;
        Some(format!(
            "\"{name}\" came up too seldom in {commands} commands"
        ))
    }
}

fn main() {
    let commands = argument(1, 300_000);
    let seed = argument(2, 1);
    println!("compare (Rust): seed {seed}");
    let mut met = Met::new();
    for index in 0..commands {
        let case = generate::case(seed, index);
        let answers = compare(&case, &format!("seed {seed}, index {index}"));
        met.add(&case.command, &answers);
    }
    traces();
    without_args();
    at_each_width();
    published();
    met.print();
    if let Some(reason) = met.rare(commands) {
        println!("compare (Rust): {reason}");
        exit(1);
    }
    println!("compare (Rust): {commands} commands, no difference");
}
