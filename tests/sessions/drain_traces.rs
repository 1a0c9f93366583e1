//! E8's traces: requests that are finished before their data has all come.

use crate::traces::{Table, Trace, COMMAND, FREE};
use second::frame::RECORD;

/// Request 1 is finished while it waits for data, on stream 1, which is open.
const FINISHED: &str = "0 0 1:d:1:0";

pub fn add(table: &mut Table) {
    to_its_end(table);
    empty_last_frame(table);
    active_meanwhile(table);
    eighth_slot(table);
    in_mid_frame(table);
    without_room(table);
    streams(table);
    out_of_shape(table);
}

/// The fresh channel after a command with data and its finish.
fn drain(table: &mut Table) -> Trace<'_> {
    let mut e8 = Trace::new(table, "E8");
    let record = format!("130000000100010001{COMMAND}");
    e8.feed(&format!("1000000100010119{COMMAND}"), 0, &record);
    e8.ask("finish 1", "finished 0");
    e8.ask("state", &state(FINISHED, "1 1"));
    e8
}

/// A state with seven free slots behind what is named.
fn state(first: &str, behind: &str) -> String {
    format!("state {first} {} {behind}", [FREE; 7].join(" "))
}

/// From the finish to the end: data without a record, a second finish, which is
/// refused, and the last data. Behind the end the id is used again, or more data comes.
fn to_its_end(table: &mut Table) {
    for again in [true, false] {
        let mut e8 = drain(table);
        e8.shows(1, " 1:d");
        e8.feed("04000001000100216c6f7374", 0, "");
        e8.ask("finish 1", "finished 4");
        e8.ask("state", &state(FINISHED, "1 1"));
        e8.feed("02000001000100226869", 0, "");
        e8.ask("state", &state("0 0 0:f:0:0", "1 0"));
        e8.shows(0, "");
        e8.ask("finish 1", "finished 4");
        if again {
            let record = format!("130000000100010000{COMMAND}");
            e8.feed(&format!("1000000100010011{COMMAND}"), 0, &record);
            e8.shows(1, " 1:r");
            e8.ask("finish 1", "finished 0");
            e8.shows(0, "");
        } else {
            e8.feed("02000001000100226869", 27, "");
            e8.ask("state", &state("27 0 0:f:0:0", "1 0"));
        }
    }
}

/// Data of length 0: more of it, and the last.
fn empty_last_frame(table: &mut Table) {
    let mut e8 = drain(table);
    e8.feed("0000000100010021", 0, "");
    e8.ask("state", &state(FINISHED, "1 1"));
    e8.feed("0000000100010022", 0, "");
    e8.ask("state", &state("0 0 0:f:0:0", "1 0"));
}

/// A new command of the id, and a continuation. The channel is dead then, and the slot
/// drains.
fn active_meanwhile(table: &mut Table) {
    for (kind, number) in [("11", 19), ("15", 19), ("1a", 21)] {
        let mut e8 = drain(table);
        e8.feed(&format!("10000001000100{kind}{COMMAND}"), number, "");
        e8.ask("finish 1", &format!("finished {number}"));
        e8.ask("state", &state(&format!("{number} 0 1:d:1:0"), "1 1"));
        e8.shows(1, " 1:d");
    }
}

/// Eight requests, of which the fourth drains, and a ninth: before the last data frame
/// and behind it, where it takes the slot that the drain freed.
fn eighth_slot(table: &mut Table) {
    let slots = |fourth: &str| format!(" 1:r 3:c 5:c {fourth} 9:c 11:c 13:c 15:c");
    for ended in [false, true] {
        let mut e8 = eight(table);
        e8.ask("finish 7", "finished 0");
        e8.shows(8, &slots("7:d"));
        if ended {
            e8.feed("0100000700010022ff", 0, "");
            e8.shows(7, &slots("0:f"));
        }
        let number = if ended { 0 } else { 20 };
        e8.feed("0000001100010015", number, "");
        e8.shows(8, &slots(if ended { "17:c" } else { "7:d" }));
    }
}

/// T1's request, then seven more: the fourth of the eight waits for data, the others are
/// collecting.
fn eight(table: &mut Table) -> Trace<'_> {
    let mut e8 = Trace::new(table, "E8");
    let whole = |id: u8, bit: u8| format!("1300000001000{id}000{bit}{COMMAND}");
    e8.feed(&format!("1000000100010111{COMMAND}"), 0, &whole(1, 0));
    for id in ["03", "05", "07", "09", "0b", "0d", "0f"] {
        match id {
            "07" => e8.feed(&format!("1000000700010019{COMMAND}"), 0, &whole(7, 1)),
            _ => e8.feed(&format!("000000{id}00010015"), 0, ""),
        }
    }
    e8
}

/// All but the last byte of a data frame has come, or its header alone, at the finish:
/// that frame is drained too.
fn in_mid_frame(table: &mut Table) {
    let frame = "02000001000100226869";
    for cut in [2, 14, 16, 18] {
        let mut e8 = Trace::new(table, "E8");
        let record = format!("130000000100010001{COMMAND}");
        e8.feed(&format!("1000000100010119{COMMAND}"), 0, &record);
        e8.feed(&frame[..cut], 0, "");
        e8.ask("finish 1", "finished 0");
        e8.ask("finish 1", "finished 4");
        let pending = cut / 2;
        e8.ask("state", &state(&format!("0 {pending} 1:d:1:0"), "1 1"));
        e8.feed(&frame[cut..], 0, "");
        e8.ask("state", &state("0 0 0:f:0:0", "1 0"));
    }
}

/// A record stands before the drained frame, so that there is no room for a longest one:
/// 5, although the frame writes nothing.
fn without_room(table: &mut Table) {
    let mut e8 = drain(table);
    let (command, data) = (format!("1000000300010011{COMMAND}"), "02000001000100226869");
    let record = format!("130000000100030000{COMMAND}");
    e8.ask(
        &format!("feed {RECORD} {command}{data}"),
        &format!("fed 5 33 25 {record}"),
    );
    e8.shows(2, " 1:d 3:r");
    e8.ask(&format!("feed {} 69", RECORD - 1), "fed 1 0 0 -");
    e8.ask(&format!("feed {RECORD} 69"), "fed 0 1 0 -");
    e8.shows(1, " 0:f 3:r");
}

/// A drained frame that ends its stream, one that begins it, and one that does both;
/// then a frame of no stream that is open.
fn streams(table: &mut Table) {
    let mut e8 = drain(table);
    e8.feed("0000000100010221", 0, "");
    e8.ask("state", &state(FINISHED, "- 1"));
    e8.feed("0000000100030121", 0, "");
    e8.ask("state", &state(FINISHED, "3 1"));
    e8.feed("0000000100050321", 0, "");
    e8.ask("state", &state(FINISHED, "3 1"));
    e8.feed("0000000100030222", 0, "");
    e8.ask("state", &state("0 0 0:f:0:0", "- 0"));
    e8.feed("0000000300030011", 16, "");

    let mut e8 = drain(table);
    e8.feed("0000000100010222", 0, "");
    e8.feed("0000000300010011", 16, "");
    let mut e8 = drain(table);
    e8.feed("0000000100010122", 17, "");
    e8.ask("state", &state("17 0 1:d:1:0", "1 1"));
}

/// A draining slot without its data bit, with a length, with an even id, and with the id
/// of another; then one in shape.
fn out_of_shape(table: &mut Table) {
    let rest = [FREE; 6].join(" ");
    let mut e8 = Trace::new(table, "E8");
    for first in ["1:d:0:0", "1:d:1:1", "2:d:1:0", "3:d:1:0", "0:d:1:0"] {
        let state = format!("0 0 {first} 3:w:1:0 {rest} 1 2");
        e8.ask(&format!("set {state}"), "set");
        e8.ask("feed 70000 0000000300010022", "fed 3 0 0 -");
        e8.ask("finish 3", "finished 3");
        e8.ask("active", "active 3 0");
        e8.ask("row 1", "row 3 65535:x");
        e8.ask("state", &format!("state {state}"));
    }
    e8.ask(&format!("set 0 0 1:d:1:0 3:w:1:0 {rest} 1 2"), "set");
    e8.feed("0000000300010022", 0, "030000000200030001");
    e8.shows(2, " 1:d 3:r");
}
