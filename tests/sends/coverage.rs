//! How often the requests meet each thing that is to be met.

use crate::counts::Counts;
use generate::{Sending, FAULTS};
use second::command;
use second::frame::{claimed, Frame, COMMAND, COMMAND_BYTES, DATA, HEADER};
use second::sender::{Request, SIZE};
use second::value::{read_whole, Value};

const NUMBERS: [u8; 6] = [0, 50, 51, 52, 53, 54];

/// All but the numbers and the reasons for 52.
const MET: [&str; 60] = [
    "50 for the request id alone",
    "50 for the stream id alone",
    "50 for both ids",
    "50 though 51 applies",
    "51 for size 0",
    "51 for size 4,097",
    "51 for a size of 2^32 or more",
    "51 though 52 applies",
    "52 by the check's 24",
    "52 by the check's 25",
    "52 by the check's 26",
    "52 of a command longer than 2,048 bytes",
    "52 of a command of 10,000 bytes or more",
    "52 though the output is too short",
    "53 of a command of 2,049 bytes",
    "53 of a command of 10,000 bytes or more",
    "53 though the output is too short",
    "54 for one byte",
    "54 for eight bytes",
    "54 with no output",
    "54 with an output that holds the command frames",
    "output exact",
    "output one byte longer",
    "output longer by more",
    "one command frame",
    "two command frames",
    "more command frames",
    "last command frame full, and others before it",
    "one command frame, full",
    "no data",
    "empty data",
    "one data frame",
    "several data frames",
    "one data frame, full",
    "last data frame full, and others before it",
    "last data frame of one byte, and others before it",
    "several command frames and several data frames",
    "neither begin nor end",
    "begin alone",
    "end alone",
    "begin and end on two frames",
    "begin and end on one frame",
    "size 1",
    "size 1 with data",
    "size 4,096",
    "size 4,096 with several data frames",
    "name of 1 byte",
    "name of 23 bytes",
    "name of 24 bytes",
    "name of 64 bytes",
    "no pairs",
    "24 to 255 pairs",
    "256 pairs or more",
    "value of six levels",
    "loose pairs without data",
    "loose pairs with data",
    "shortest pairs without data",
    "shortest pairs with data",
    "command of 2,048 bytes",
    "request id above 255",
];

pub struct Coverage {
    counts: Counts,
}

/// The levels of containers in a value.
fn levels(value: &Value) -> usize {
    let deepest = match value {
        Value::Array(items) => items.iter().map(levels).max(),
        Value::Map(entries) => entries.iter().map(|(_, value)| levels(value)).max(),
        Value::Set(_) => None,
        _ => return 0,
    };
    1 + deepest.unwrap_or(0)
}

fn split(mut bytes: &[u8]) -> Vec<Frame> {
    let mut frames = Vec::new();
    while !bytes.is_empty() {
        let (frame, rest) = bytes.split_at(HEADER + claimed(bytes));
        frames.push(Frame::read(frame.to_vec()));
        bytes = rest;
    }
    frames
}

fn number_name(number: u8) -> String {
    format!("{number} answered")
}

fn fault_name(fault: &str) -> String {
    format!("52: {fault}")
}

impl Coverage {
    pub fn new() -> Coverage {
        let numbers = NUMBERS.into_iter().map(number_name);
        let faults = FAULTS.into_iter().map(fault_name);
        let met = MET.into_iter().map(String::from);
        let names: Vec<String> = numbers.chain(faults).chain(met).collect();
        Coverage {
            counts: Counts::of(names),
        }
    }

    fn add_if(&mut self, met: bool, name: &str) {
        if met {
            self.counts.add(name);
        }
    }

    pub fn print(&self) {
        self.counts.print();
    }

    /// A number that was answered to less than one of 50 requests, or another
    /// thing that came up in less than one of 500.
    pub fn rare(&self, requests: u64) -> Option<&str> {
        self.counts.rare(|place| {
            let share = if place < NUMBERS.len() { 50 } else { 500 };
            requests.div_ceil(share)
        })
    }

    /// A request, what it was answered, and the frames that were written.
    pub fn request(&mut self, sending: &Sending, request: &Request, number: u8, frames: &[u8]) {
        self.add_if(true, &number_name(number));
        let sized = (1..=SIZE).contains(&request.size);
        match number {
            50 => {
                let [id, stream] = [request.id % 2 == 0, request.stream % 2 == 0];
                self.add_if(!stream, "50 for the request id alone");
                self.add_if(!id, "50 for the stream id alone");
                self.add_if(id && stream, "50 for both ids");
                self.add_if(!sized, "50 though 51 applies");
            }
            51 => {
                self.add_if(request.size == 0, "51 for size 0");
                self.add_if(request.size == SIZE + 1, "51 for size 4,097");
                self.add_if(request.size >= 1 << 32, "51 for a size of 2^32 or more");
                self.add_if(!sending.fault.is_empty(), "51 though 52 applies");
            }
            52 | 53 => self.refused_command(sending, request, number),
            54 => {
                let missing = sending.total() - sending.output;
                let data = sending.data.as_ref().map_or(0, Vec::len);
                self.add_if(missing == 1, "54 for one byte");
                self.add_if(missing == 8, "54 for eight bytes");
                self.add_if(sending.output == 0, "54 with no output");
                self.add_if(
                    missing <= data,
                    "54 with an output that holds the command frames",
                );
            }
            _ => self.accepted(sending, request, &split(frames)),
        }
    }

    /// A request that is refused for its command: by the check, or for its length. The
    /// size is in its range.
    fn refused_command(&mut self, sending: &Sending, request: &Request, number: u8) {
        let short = sending.output < sending.total();
        let length = sending.length();
        if number == 52 {
            let check = command::check(&request.command());
            self.add_if(true, &format!("52 by the check's {check}"));
            self.add_if(!sending.fault.is_empty(), &fault_name(sending.fault));
            let long = length > COMMAND_BYTES;
            self.add_if(long, "52 of a command longer than 2,048 bytes");
        } else {
            let one = length == COMMAND_BYTES + 1;
            self.add_if(one, "53 of a command of 2,049 bytes");
        }
        let huge = format!("{number} of a command of 10,000 bytes or more");
        self.add_if(length >= 10_000, &huge);
        let both = format!("{number} though the output is too short");
        self.add_if(short, &both);
    }

    fn accepted(&mut self, sending: &Sending, request: &Request, frames: &[Frame]) {
        let longer = sending.output - sending.total();
        self.add_if(longer == 0, "output exact");
        self.add_if(longer == 1, "output one byte longer");
        self.add_if(longer > 1, "output longer by more");
        self.shapes(request, frames);
        self.streams(frames);
        let data = request.data.is_some();
        self.add_if(request.size == 1, "size 1");
        self.add_if(request.size == 1 && data, "size 1 with data");
        self.add_if(request.size == SIZE, "size 4,096");
        for length in [23, 24, 64] {
            let met = request.name.len() == length;
            self.add_if(met, &format!("name of {length} bytes"));
        }
        self.add_if(request.name.len() == 1, "name of 1 byte");
        self.add_if(request.count == 0, "no pairs");
        let many = (24..256).contains(&request.count);
        self.add_if(many, "24 to 255 pairs");
        self.add_if(request.count >= 256, "256 pairs or more");
        let command = request.command();
        let loose = command::loose(&command);
        assert!(loose || !sending.wide, "pairs with wide heads are loose");
        let how = if loose { "loose" } else { "shortest" };
        let with = if data { "with" } else { "without" };
        self.add_if(true, &format!("{how} pairs {with} data"));
        let tree = read_whole(&command).expect("it passes the check");
        self.add_if(levels(&tree) == 8, "value of six levels");
        self.add_if(command.len() == COMMAND_BYTES, "command of 2,048 bytes");
        self.add_if(request.id > 255, "request id above 255");
    }

    fn shapes(&mut self, request: &Request, frames: &[Frame]) {
        let of = |kind| {
            let lengths = frames.iter().filter(move |frame| frame.kind() == kind);
            lengths
                .map(|frame| frame.payload().len())
                .collect::<Vec<_>>()
        };
        let full = request.size as usize;
        let (commands, data) = (of(COMMAND), of(DATA));
        let (ends_full, several) = (commands.last() == Some(&full), commands.len() > 1);
        self.add_if(!several, "one command frame");
        self.add_if(commands.len() == 2, "two command frames");
        self.add_if(commands.len() > 2, "more command frames");
        self.add_if(!several && ends_full, "one command frame, full");
        self.add_if(
            several && ends_full,
            "last command frame full, and others before it",
        );
        let (last, more) = (data.last().copied(), data.len() > 1);
        self.add_if(last.is_none(), "no data");
        self.add_if(data == [0], "empty data");
        self.add_if(data.len() == 1 && data != [0], "one data frame");
        self.add_if(more, "several data frames");
        self.add_if(data == [full], "one data frame, full");
        self.add_if(
            more && last == Some(full),
            "last data frame full, and others before it",
        );
        self.add_if(
            more && last == Some(1),
            "last data frame of one byte, and others before it",
        );
        self.add_if(
            more && several,
            "several command frames and several data frames",
        );
        let largest = more && request.size == SIZE;
        self.add_if(largest, "size 4,096 with several data frames");
    }

    fn streams(&mut self, frames: &[Frame]) {
        let begins = frames.iter().any(Frame::begins);
        let ends = frames.iter().any(Frame::ends);
        let both = frames.iter().any(|frame| frame.begins() && frame.ends());
        let name = match (begins, ends) {
            (false, false) => "neither begin nor end",
            (true, false) => "begin alone",
            (false, true) => "end alone",
            _ if both => "begin and end on one frame",
            _ => "begin and end on two frames",
        };
        self.add_if(true, name);
    }
}
