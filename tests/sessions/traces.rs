//! The papers' traces, as lines and their answers.

use crate::drain_traces;
use second::frame::{PAYLOAD, RECORD};
use second::replay::Replay;
use second::state::WORK;
use std::io::{Result, Write};
use std::process::{Command, Stdio};

/// T1's command, and a header for it without its last byte.
pub const COMMAND: &str = "a2446e616d65437365744461726773a0";
const HEADER: &str = "10000001000101";
pub const FREE: &str = "0:f:0:0";
/// More than the longest record.
const OUTPUT: usize = 70_000;

/// A line of a trace, and its answer.
pub struct Asked {
    trace: &'static str,
    line: String,
    answer: String,
}

pub type Table = Vec<Asked>;

/// A trace on a fresh channel, which is added to a table.
pub struct Trace<'t> {
    name: &'static str,
    table: &'t mut Table,
}

impl<'t> Trace<'t> {
    pub fn new(table: &'t mut Table, name: &'static str) -> Trace<'t> {
        let mut trace = Trace { name, table };
        trace.ask(&format!("fresh {WORK}"), "fresh");
        trace
    }

    pub fn ask(&mut self, line: &str, answer: &str) {
        self.table.push(Asked {
            trace: self.name,
            line: line.to_string(),
            answer: answer.to_string(),
        });
    }

    /// Feeds bytes that are all taken.
    pub fn feed(&mut self, hex: &str, number: u8, records: &str) {
        let (taken, written) = (hex.len() / 2, records.len() / 2);
        let shown = if records.is_empty() { "-" } else { records };
        let answer = format!("fed {number} {taken} {written} {shown}");
        self.ask(&format!("feed {OUTPUT} {hex}"), &answer);
        self.ask("tail", "tail kept");
    }

    /// The count, and a row whose first entries are these, the others free.
    pub fn shows(&mut self, count: usize, first: &str) {
        self.ask("active", &format!("active 0 {count}"));
        let free = 8 - first.matches(' ').count();
        let answer = format!("row 0{first}{}", " 0:f".repeat(free));
        self.ask("row 8", &answer);
    }
}

/// The lines are answered by a program that reads them from its standard
/// input, or by the second implementation.
pub fn run(program: Option<&str>) -> Result<()> {
    let table = &mut Table::new();
    single_frames(table);
    lengths(table);
    ninth_request(table);
    longest_command(table);
    finish_of_collecting(table);
    command_bytes(table);
    without_args(table);
    loosely_written(table);
    lamp(table);
    wrong_counts(table);
    larger_frames(table);
    converted_logs(table);
    drain_traces::add(table);
    let answers = match program {
        Some(program) => program_answers(program, table)?,
        None => second_answers(table),
    };
    assert_eq!(answers.len(), table.len(), "each line has its answer");
    for (asked, answer) in table.iter().zip(&answers) {
        assert_eq!(*answer, asked.answer, "{}: {}", asked.trace, asked.line);
    }
    let who = program.unwrap_or("the second implementation");
    println!("sessions: T1 to T12, E1, E5, E6, E7 and E8 as in the papers, by {who}");
    Ok(())
}

fn second_answers(table: &Table) -> Vec<String> {
    let mut replay = Replay::default();
    let answers = table
        .iter()
        .map(|asked| replay.answer(asked.line.as_bytes()));
    answers.flatten().collect()
}

fn program_answers(program: &str, table: &Table) -> Result<Vec<String>> {
    let mut child = Command::new(program)
        .stdin(Stdio::piped())
        .stdout(Stdio::piped())
        .spawn()?;
    let mut input = child.stdin.take().expect("a pipe was asked for");
    for asked in table {
        writeln!(input, "{}", asked.line)?;
    }
    drop(input);
    let output = child.wait_with_output()?;
    let text = String::from_utf8_lossy(&output.stdout);
    Ok(text.lines().map(String::from).collect())
}

/// T1, T2, T3, T5 and T10.
fn single_frames(table: &mut Table) {
    let mut t1 = Trace::new(table, "T1");
    t1.feed(
        &format!("{HEADER}11{COMMAND}"),
        0,
        &format!("130000000100010000{COMMAND}"),
    );
    let rest = [FREE; 7].join(" ");
    t1.ask("state", &format!("state 0 0 1:r:0:0 {rest} 1 1"));
    t1.ask("work 65543 65559", &format!("work {COMMAND}"));

    let mut t2 = Trace::new(table, "T2");
    t2.feed("0900000100010192486964656e74697479", 0, "");
    let free = [FREE; 8].join(" ");
    t2.ask("state", &format!("state 0 0 {free} 1 0"));

    let mut t3 = Trace::new(table, "T3");
    t3.ask(&format!("set 0 0 1:w:1:0 {rest} 1 1"), "set");
    t3.feed("02000001000100226869", 0, "0500000002000100016869");
    t3.ask("state", &format!("state 0 0 1:r:1:0 {rest} 1 1"));

    let mut t5 = Trace::new(table, "T5");
    t5.feed(&format!("{HEADER}13{COMMAND}"), 18, "");
    t5.ask("state", &format!("state 18 0 {free} - 0"));

    let mut t10 = Trace::new(table, "T10");
    t10.feed("0000000100010111", 24, "");
    t10.ask("state", &format!("state 24 0 {free} - 0"));
}

/// T4, as E7 has it. The refused call ends on the eighth byte, whatever follows.
fn lengths(table: &mut Table) {
    let free = [FREE; 8].join(" ");
    let mut allowed = Trace::new(table, "T4");
    allowed.feed("ffff000100010111", 0, "");
    allowed.ask("state", &format!("state 0 8 {free} - 0"));
    let mut refused = Trace::new(table, "T4");
    let line = format!("feed {OUTPUT} 0000010100010111a2");
    refused.ask(&line, "fed 11 8 0 -");
    refused.ask("state", &format!("state 11 0 {free} - 0"));
}

/// T6: T1's request, then seven that are collecting, then a ninth. The finish is one of a
/// running id (E8).
fn ninth_request(table: &mut Table) {
    for finished in [false, true] {
        let mut t6 = Trace::new(table, "T6");
        t6.feed(
            &format!("{HEADER}11{COMMAND}"),
            0,
            &format!("130000000100010000{COMMAND}"),
        );
        for id in ["03", "05", "07", "09", "0b", "0d", "0f"] {
            t6.feed(&format!("000000{id}00010015"), 0, "");
        }
        if finished {
            t6.ask("finish 1", "finished 0");
        }
        let number = if finished { 0 } else { 20 };
        t6.feed("0000001100010015", number, "");
        t6.ask("active", "active 0 8");
    }
}

/// T7, in one frame and in two. The argument is a byte string that fills
/// the command up to its length.
fn longest_command(table: &mut Table) {
    let command = |length: usize| {
        let filler = length - 21;
        let bytes = "5a".repeat(filler);
        format!("a2446e616d65437365744461726773a1416b59{filler:04x}{bytes}")
    };
    let record = format!("030800000100010000{}", command(2048));
    let mut one = Trace::new(table, "T7");
    one.feed(&format!("0008000100010111{}", command(2048)), 0, &record);
    let mut one = Trace::new(table, "T7");
    one.feed(&format!("0108000100010111{}", command(2049)), 23, "");

    let (long, over) = (command(2048), command(2049));
    let mut two = Trace::new(table, "T7");
    two.feed(&format!("0004000100010115{}", &long[..2048]), 0, "");
    two.feed(&format!("0004000100010012{}", &long[2048..]), 0, &record);
    let mut two = Trace::new(table, "T7");
    two.feed(&format!("0004000100010115{}", &over[..2048]), 0, "");
    two.feed(&format!("0104000100010012{}", &over[2048..]), 23, "");
}

/// T12.
fn finish_of_collecting(table: &mut Table) {
    let mut t12 = Trace::new(table, "T12");
    t12.feed("0000000100010115", 0, "");
    t12.ask("finish 1", "finished 4");
    let rest = [FREE; 7].join(" ");
    t12.ask("state", &format!("state 0 0 1:c:0:0 {rest} 1 1"));
}

/// T8 to T11, each as the argument `k`.
fn command_bytes(table: &mut Table) {
    let with = |item: &str| format!("a2446e616d65437365744461726773a1416b{item}");
    let cases = [
        ("T8", "3b7fffffffffffffff", "0 -9223372036854775808"),
        ("T8", "3b8000000000000000", "8 0"),
        ("T9", "20", "0 -1"),
        ("T11", "818181818180", "7 0"),
        ("T11", "81818181818180", "24 0"),
    ];
    for (name, item, answer) in cases {
        let mut trace = Trace::new(table, name);
        let line = format!("int {} 6b", with(item));
        trace.ask(&line, &format!("integer {answer}"));
    }
    Trace::new(table, "T10").ask("check -", "checked 24");
}

/// E1: a command of the name `off` alone, and with `redirect`; then no name,
/// and an `args` that is an array.
fn without_args(table: &mut Table) {
    let name = "446e616d65436f6666";
    let alone = format!("a1{name}");
    let mut e1 = Trace::new(table, "E1");
    let record = format!("0d0000000100010000{alone}");
    e1.feed(&format!("0a00000100010111{alone}"), 0, &record);
    for command in [alone, format!("a2{name}487265646972656374a0")] {
        e1.ask(&format!("check {command}"), "checked 0");
        e1.ask(&format!("name {command}"), "named 0 6f6666");
        e1.ask(&format!("arg {command} 6b"), "argument 6 -");
        e1.ask(&format!("int {command} 6b"), "integer 6 0");
    }
    e1.ask("check a14461726773a0", "checked 25");
    e1.ask(&format!("check a2{name}446172677380"), "checked 25");
}

/// E5: T1 with a loose head, without data and with data, which makes the record's
/// third body byte 2 and 3; then the marks of a few heads, as the argument `k`.
fn loosely_written(table: &mut Table) {
    let loose = format!("b802{}", &COMMAND[2..]);
    let mut e5 = Trace::new(table, "E5");
    for (kind, bit) in [("11", "02"), ("19", "03")] {
        let frame = format!("11000001000103{kind}{loose}");
        e5.feed(&frame, 0, &format!("1400000001000100{bit}{loose}"));
        if kind == "11" {
            e5.ask("finish 1", "finished 0");
        }
    }
    e5.feed("02000001000103226869", 0, "0500000002000100016869");
    let with = |item: &str| format!("a2446e616d65437365744461726773a1416b{item}");
    for (item, mark) in [
        ("1817", 1),
        ("1818", 0),
        ("d9010280", 0),
        ("da0000010280", 1),
    ] {
        e5.ask(&format!("loose {}", with(item)), &format!("loose {mark}"));
    }
}

/// E6: the count and the row after each call. The last frame is a new one of an active
/// id, which is refused.
fn lamp(table: &mut Table) {
    let record = |id: u8, bit: u8| format!("1300000001000{id}000{bit}{COMMAND}");
    let mut e6 = Trace::new(table, "E6");
    e6.shows(0, "");
    e6.feed("0000000100010115", 0, "");
    e6.shows(1, " 1:c");
    let rest = format!("1000000100010012{COMMAND}");
    e6.feed(&rest, 0, &record(1, 0));
    e6.shows(1, " 1:r");
    let second = format!("1000000300010019{COMMAND}");
    e6.feed(&second, 0, &record(3, 1));
    e6.shows(2, " 1:r 3:w");
    e6.ask("finish 5", "finished 4");
    e6.shows(2, " 1:r 3:w");
    e6.feed("0000000300010022", 0, "030000000200030001");
    e6.shows(2, " 1:r 3:r");
    e6.ask("finish 1", "finished 0");
    e6.shows(1, " 0:f 3:r");
    e6.feed("0000000300010015", 19, "");
    e6.shows(1, " 0:f 3:r");
    e6.ask("feed 70000 00", "fed 19 0 0 -");
    e6.ask("finish 3", "finished 19");
    e6.shows(1, " 0:f 3:r");
}

/// E6: one request, with each wrong count near the right one, and with the right one.
fn wrong_counts(table: &mut Table) {
    let rest = [FREE; 7].join(" ");
    let kept = " 65535:x";
    let mut e6 = Trace::new(table, "E6");
    for count in [0, 2, 9, 255] {
        let state = format!("0 0 1:r:0:0 {rest} 1 {count}");
        e6.ask(&format!("set {state}"), "set");
        e6.ask("feed 70000 00", "fed 3 0 0 -");
        e6.ask("finish 1", "finished 3");
        e6.ask("active", "active 3 0");
        e6.ask("row 7", &format!("row 3{}", kept.repeat(7)));
        e6.ask("row 9", &format!("row 3{}", kept.repeat(9)));
        e6.ask("state", &format!("state {state}"));
    }
    e6.ask(&format!("set 0 0 1:r:0:0 {rest} 1 1"), "set");
    e6.ask("row 7", &format!("row 9{}", kept.repeat(7)));
    let filled = format!("row 0 1:r{}{kept}", " 0:f".repeat(7));
    e6.ask("row 9", &filled);
    e6.ask("finish 1", "finished 0");
    e6.shows(0, "");
}

/// E7: the longest data frame, with the least output for it and with a byte less; then
/// one that claims a byte more.
fn larger_frames(table: &mut Table) {
    let rest = [FREE; 7].join(" ");
    let data = "5a".repeat(PAYLOAD);
    let (header, last) = (format!("ffff000100010022{}", &data[2..]), "5a");
    let mut e7 = Trace::new(table, "E7");
    e7.ask(&format!("set 0 0 1:w:1:0 {rest} 1 1"), "set");
    e7.ask(&format!("feed {} {header}", RECORD - 1), "fed 1 0 0 -");
    e7.feed(&header, 0, "");
    e7.ask("state", &format!("state 0 65542 1:w:1:0 {rest} 1 1"));
    e7.ask(&format!("feed {} {last}", RECORD - 1), "fed 1 0 0 -");
    let record = format!("020001000200010001{data}");
    let answer = format!("fed 0 1 65544 {record}");
    e7.ask(&format!("feed {RECORD} {last}"), &answer);
    e7.ask("state", &format!("state 0 0 1:r:1:0 {rest} 1 1"));
    e7.feed("0000010100010022", 11, "");
    e7.ask(&format!("set 0 65542 1:r:1:0 {rest} 1 1"), "set");
    e7.ask("finish 1", "finished 0");
    e7.ask(&format!("set 0 65543 1:r:1:0 {rest} 1 1"), "set");
    e7.ask("finish 1", "finished 3");
}

/// E7: T1's and T3's records as they were stored, and as they are now; cut in the last
/// body, with output for none of it.
fn converted_logs(table: &mut Table) {
    let old = format!("13000100010000{COMMAND}050002000100016869");
    let new = format!("130000000100010000{COMMAND}0500000002000100016869");
    let cut = &old[..old.len() - 2];
    let mut e7 = Trace::new(table, "E7");
    e7.ask(
        &format!("convert 36 {old}"),
        &format!("converted 0 36 {new}"),
    );
    e7.ask(&format!("convert 35 {old}"), "converted 71 0 -");
    e7.ask("tail", "tail kept");
    e7.ask(
        &format!("convert 99 {old}"),
        &format!("converted 0 36 {new}"),
    );
    e7.ask("tail", "tail kept");
    e7.ask(&format!("convert 0 {cut}"), "converted 70 0 -");
    e7.ask(&format!("convert 99 {cut}"), "converted 70 0 -");
    e7.ask("tail", "tail kept");
    e7.ask(&format!("whole {old}"), "whole 32");
    e7.ask(&format!("whole {cut}"), "whole 23");
    e7.ask("convert 0 -", "converted 0 0 -");
}
