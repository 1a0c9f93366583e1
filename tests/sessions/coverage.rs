//! How often the sessions meet each thing that is to be met.

use crate::counts::{is_large, Memory};
use crate::drains::{self, Drains};
use crate::lamps;
use generate::{heads, Head};
use second::command::lacks_args;
use second::frame::{
    Frame, BEGINS, COMMAND, COMMAND_BYTES, CONTINUATION, DATA, ENDS, LAST_DATA, MORE, NEW, PAYLOAD,
    WITH_DATA,
};
use second::receiver::Event;
use second::sender::SIZE;
use second::state::Way;
use std::collections::BTreeMap;

/// Of data frames that were too long before E7.
const LARGE_DATA: &str = "data of 4,097 to 65,535 bytes";

/// All but the refusal numbers, the ways to be out of shape, and what is of E6 and E8.
const MET: [&str; 79] = [
    "2 though 3 applies too",
    "3 though dead",
    "dead answered to a feed",
    "dead answered to a feed with too little output",
    "dead answered to a finish",
    "3 answered to a finish",
    "finish accepted with a held length out of shape",
    "finish of a collecting id, 4",
    "finish of an id that is not active, 4",
    "finish accepted",
    "finish accepted in mid-frame",
    "24 on a new frame",
    "25 on a new frame",
    "26 on a new frame",
    "24 on a continuation",
    "25 on a continuation",
    "26 on a continuation",
    "11 with too little output left for a record",
    "refused after records of the same feed",
    "5 before a frame that writes nothing",
    "5 before a frame that is then refused",
    "5 with 65,543 bytes of output left",
    "last byte taken with 65,544 bytes of output left",
    "5 with an output of 131,088 or more",
    "5, and the rest offered again",
    "5, and the rest not offered again",
    "empty input",
    "input of one byte",
    "frame over several feeds",
    "several frames in one feed",
    "start in mid-frame",
    "start with 65,542 bytes pending",
    "start with a length above 65,535 in less than 8 bytes",
    "start dead",
    "start dead in mid-frame",
    "start by a poke alone",
    "start with slots in use",
    "new",
    "continuation",
    "more follow",
    "whole, to waiting",
    "whole, to running",
    "command frame without payload",
    "command of 2,047 bytes",
    "command of 2,048 bytes",
    "command without args",
    "shortest command, to waiting",
    "shortest command, to running",
    "loose command, to waiting",
    "loose command, to running",
    "loose command over several frames",
    "a command's one loose head cut by frames",
    "request over several streams",
    "id used again",
    "eighth request",
    "data, more",
    "data, last",
    "data, empty and more",
    "data, empty and last",
    "data of 4,096 bytes",
    "data of 4,097 bytes",
    LARGE_DATA,
    "data of 65,535 bytes",
    "data of 65,535 bytes, 65,544 bytes of output",
    "65,536 bytes claimed, 11",
    "a large frame refused on its last byte",
    "a large frame cut behind its header",
    "a large frame's last byte alone",
    "a large frame in one feed",
    "5 before the last byte of a large data frame",
    "settings with a head of width 0",
    "settings with a head of width 1",
    "settings with a head of width 2",
    "settings with a head of width 4",
    "settings with a head of width 8",
    "stream begins",
    "stream ends",
    "stream begins and ends in one frame",
    "apply encoding",
];

pub struct Coverage {
    /// In the order of printing.
    counts: Vec<(String, u64)>,
    places: BTreeMap<String, usize>,
    pub memory: Memory,
    pub drains: Drains,
}

impl Coverage {
    pub fn new() -> Coverage {
        let numbers = (1..=9).chain(11..=29).map(number_name);
        let ways = Way::ALL.into_iter().map(way_name);
        let met = MET.into_iter().chain(drains::MET).map(String::from);
        let met = met.chain(lamps::names());
        let names: Vec<String> = numbers.chain(ways).chain(met).collect();
        Coverage {
            counts: names.iter().map(|name| (name.clone(), 0)).collect(),
            places: names.into_iter().zip(0..).collect(),
            memory: Memory::default(),
            drains: Drains::default(),
        }
    }

    pub fn add(&mut self, name: &str) {
        let place = self.places.get(name);
        self.counts[*place.expect("a name of the table")].1 += 1;
    }

    pub fn add_if(&mut self, met: bool, name: &str) {
        if met {
            self.add(name);
        }
    }

    pub fn number(&mut self, number: u8) {
        self.add(&number_name(number));
    }

    /// A feed answered 3. Counted only where one way alone is the reason. A
    /// pending count above 65,542 is out of shape beside any held length.
    pub fn shape(&mut self, plain: &[Way], held: &[Way]) {
        match (plain, held) {
            ([way @ Way::PendingAbove], _) | ([way], []) | ([], [way]) => self.add(&way_name(*way)),
            _ => {}
        }
    }

    pub fn print(&self) {
        for (name, count) in &self.counts {
            println!("{count:>8}  {name}");
        }
    }

    /// Something that came up less often than it must, how often, and how often it
    /// must.
    pub fn rare(&self) -> Option<(&str, u64, u64)> {
        let mut counts = self
            .counts
            .iter()
            .map(|(name, count)| (&name[..], *count, least(name)));
        counts.find(|(_, count, least)| count < least)
    }

    /// An accepted frame, and what was accepted before it.
    pub fn accepted(&mut self, frame: &Frame, past: &[Event]) {
        let both = BEGINS | ENDS;
        match frame.stream_flags() & both {
            BEGINS => self.add("stream begins"),
            ENDS => self.add("stream ends"),
            0 => {}
            _ => self.add("stream begins and ends in one frame"),
        }
        let encoding = frame.stream_flags() & 0x04 != 0;
        self.add_if(encoding, "apply encoding");
        match frame.kind() {
            COMMAND => self.command(frame, past),
            DATA => self.data(frame),
            _ => self.settings(frame),
        }
    }

    fn command(&mut self, frame: &Frame, past: &[Event]) {
        self.add_if(frame.is_command(NEW), "new");
        self.add_if(frame.is_command(CONTINUATION), "continuation");
        self.add_if(frame.is_command(MORE), "more follow");
        self.add_if(frame.payload().is_empty(), "command frame without payload");
        if frame.makes_whole() {
            let data = frame.is_command(WITH_DATA);
            self.add_if(data, "whole, to waiting");
            self.add_if(!data, "whole, to running");
            let payloads = payloads(frame, past);
            let command = payloads.concat();
            self.written(&payloads, data);
            let left = COMMAND_BYTES.checked_sub(command.len());
            self.add_if(left == Some(1), "command of 2,047 bytes");
            self.add_if(left == Some(0), "command of 2,048 bytes");
            self.add_if(lacks_args(&command), "command without args");
        }
        let before = command_frames(frame, past).next();
        if frame.is_command(CONTINUATION) {
            let moved = before.is_some_and(|before| before.stream() != frame.stream());
            self.add_if(moved, "request over several streams");
        } else {
            self.add_if(before.is_some(), "id used again");
        }
    }

    /// How a command is written that came in these payloads.
    fn written(&mut self, payloads: &[&[u8]], data: bool) {
        let mut loose = heads(&payloads.concat());
        loose.retain(Head::is_loose);
        let how = if loose.is_empty() {
            "shortest"
        } else {
            "loose"
        };
        let next = if data { "waiting" } else { "running" };
        self.add(&format!("{how} command, to {next}"));
        let several = !loose.is_empty() && payloads.len() > 1;
        self.add_if(several, "loose command over several frames");
        if let [head] = loose[..] {
            let inside = head.at + 1..head.at + head.length;
            let mut ends = payloads.iter().scan(0, |end, payload| {
                *end += payload.len();
                Some(*end)
            });
            let cut = ends.any(|end| inside.contains(&end));
            self.add_if(cut, "a command's one loose head cut by frames");
        }
    }

    fn data(&mut self, frame: &Frame) {
        let length = frame.payload().len();
        let (any, empty) = if frame.flags() == LAST_DATA {
            ("data, last", "data, empty and last")
        } else {
            ("data, more", "data, empty and more")
        };
        self.add(any);
        self.add_if(length == 0, empty);
        self.add_if(length == SIZE as usize, "data of 4,096 bytes");
        self.add_if(length == SIZE as usize + 1, "data of 4,097 bytes");
        self.add_if(is_large(length), LARGE_DATA);
        self.add_if(length == PAYLOAD, "data of 65,535 bytes");
    }

    fn settings(&mut self, frame: &Frame) {
        let width = frame.payload().len() - b"\x48identity".len();
        self.add(&format!("settings with a head of width {width}"));
    }
}

/// The command frames with this frame's request id, the latest first.
fn command_frames<'p>(frame: &Frame, past: &'p [Event]) -> impl Iterator<Item = &'p Frame> {
    let id = frame.request();
    past.iter().rev().filter_map(move |event| match event {
        Event::Frame(frame) if frame.kind() == COMMAND && frame.request() == id => Some(frame),
        _ => None,
    })
}

/// The payloads of the command that this frame makes whole.
fn payloads<'p>(frame: &'p Frame, past: &'p [Event]) -> Vec<&'p [u8]> {
    let mut payloads = vec![frame.payload()];
    if frame.is_command(CONTINUATION) {
        for before in command_frames(frame, past) {
            payloads.push(before.payload());
            if before.is_command(NEW) {
                break;
            }
        }
    }
    payloads.reverse();
    payloads
}

/// How often a thing must come up.
fn least(name: &str) -> u64 {
    match name {
        LARGE_DATA => 200,
        _ if lamps::WRONG_COUNTS.contains(&name) => 100,
        _ => 20,
    }
}

fn number_name(number: u8) -> String {
    let what = match number {
        1..=5 => "answered",
        6..=8 => "answered to a lookup",
        9 => "answered to a row",
        _ => "refused a frame",
    };
    format!("{number} {what}")
}

fn way_name(way: Way) -> String {
    format!("3: {}", way.name())
}
