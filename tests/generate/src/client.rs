//! A client that keeps to the rules of the channel. It knows what the
//! receiver then holds, so that its next step can be good, or wrong in the
//! way that is wanted.

use crate::commands;
use crate::loose::one_loose;
use crate::random::Random;
use crate::sizes::{LONGEST_COMMAND, LONGEST_PAYLOAD, LONGEST_SENT, RECORD_HEAD, SLOTS};
use std::collections::BTreeSet;

pub const COMMAND: u8 = 1;
pub const DATA: u8 = 2;
pub const SETTINGS: u8 = 9;

pub const BEGINS: u8 = 1;
pub const ENDS: u8 = 2;

pub const NEW: u8 = 1;
pub const CONTINUATION: u8 = 2;
pub const MORE: u8 = 4;
pub const WITH_DATA: u8 = 8;

/// Few, so that they come again, and with differing bytes.
const IDS: [u16; 14] = [
    1, 3, 5, 7, 9, 11, 13, 15, 17, 0x0101, 0x0201, 0x1035, 0x8001, 0xffff,
];
pub const STREAMS: [u8; 8] = [1, 3, 5, 7, 127, 129, 253, 255];

#[derive(Clone, Copy, PartialEq)]
pub enum Phase {
    Collecting,
    Waiting,
    Running,
    Draining,
}

pub struct Request {
    pub id: u16,
    pub phase: Phase,
    pub data: bool,
    pub command: Vec<u8>,
    /// How much of the command has gone out, and in how many frames the
    /// rest goes.
    pub sent: usize,
    pub frames: usize,
}

pub enum Step {
    /// The bytes of a frame, and the length of the record that it makes.
    Frame {
        bytes: Vec<u8>,
        record: usize,
    },
    Finish(u16),
}

#[derive(Default)]
pub struct Client {
    pub requests: Vec<Request>,
    pub open: BTreeSet<u8>,
    pub steps: Vec<Step>,
}

/// `last` is the header's last byte: the type and the flags.
pub fn frame(request: u16, stream: (u8, u8), last: u8, payload: &[u8]) -> Vec<u8> {
    let length = (payload.len() as u32).to_le_bytes();
    let mut bytes = length[..3].to_vec();
    bytes.extend(request.to_le_bytes());
    bytes.extend([stream.0, stream.1, last]);
    bytes.extend(payload);
    bytes
}

/// A byte string of settings, its head in any width.
pub fn identity(random: &mut Random) -> Vec<u8> {
    let head = random.pick::<&[u8]>(&[
        b"\x48",
        b"\x58\x08",
        b"\x59\0\x08",
        b"\x5a\0\0\0\x08",
        b"\x5b\0\0\0\0\0\0\0\x08",
    ]);
    [head, b"identity"].concat()
}

/// A good command of this length, from 21 bytes on.
pub fn command_of(length: usize, random: &mut Random) -> Vec<u8> {
    let mut command = b"\xa2\x44name\x43set\x44args\xa1\x41k\x59".to_vec();
    let filler = length - command.len() - 2;
    command.extend((filler as u16).to_be_bytes());
    command.extend(random.bytes(filler));
    command
}

fn good_command(random: &mut Random) -> Vec<u8> {
    match random.below(10) {
        0..=2 => b"\xa2\x44name\x43set\x44args\xa0".to_vec(),
        3 => b"\xa1\x44name\x43off".to_vec(),
        4 => {
            let length = random.pick(&[100, LONGEST_COMMAND - 1, LONGEST_COMMAND]);
            command_of(length, random)
        }
        5 => short_enough(|| one_loose(random).command),
        _ => short_enough(|| commands::good(random)),
    }
}

/// The first one made that is no longer than a command may be.
fn short_enough(mut make: impl FnMut() -> Vec<u8>) -> Vec<u8> {
    loop {
        let command = make();
        if command.len() <= LONGEST_COMMAND {
            return command;
        }
    }
}

impl Client {
    /// One step that the receiver accepts, or a finish that it answers 4.
    pub fn act(&mut self, random: &mut Random) {
        let mut done = false;
        while !done {
            done = match random.below(20) {
                0..=3 => self.begin(random),
                4..=8 => self.carry_on(random),
                9..=13 => self.data(random),
                14 => self.settings(random),
                15..=17 => self.finish(random),
                18 => self.finish_early(random),
                _ => self.finish_in_vain(random),
            };
        }
    }

    /// Acts until the step is a frame that passes the test, and takes that
    /// frame back, with the length of its record.
    pub fn next_frame(
        &mut self,
        random: &mut Random,
        test: impl Fn(&[u8]) -> bool,
    ) -> (Vec<u8>, usize) {
        loop {
            self.act(random);
            match self.steps.pop() {
                Some(Step::Frame { bytes, record }) if test(&bytes) => return (bytes, record),
                step => self.steps.extend(step),
            }
        }
    }

    pub fn idle_id(&self, random: &mut Random) -> u16 {
        loop {
            let id = random.pick(&IDS);
            if self.requests.iter().all(|request| request.id != id) {
                return id;
            }
        }
    }

    /// A request in this phase, or any if none is named.
    pub fn some(&self, random: &mut Random, phase: Option<Phase>) -> Option<usize> {
        let fits = |place: &usize| phase.is_none_or(|phase| self.requests[*place].phase == phase);
        let places: Vec<usize> = (0..self.requests.len()).filter(fits).collect();
        (!places.is_empty()).then(|| random.pick(&places))
    }

    /// A stream and its flags, as the rules ask for now.
    pub fn address(&self, random: &mut Random) -> (u8, u8) {
        let closed = self.closed();
        let open: Vec<u8> = self.open.iter().copied().collect();
        let begins = open.is_empty() || !closed.is_empty() && random.percent(40);
        let stream = random.pick(if begins { &closed } else { &open });
        (stream, u8::from(begins) | other_stream_flags(random))
    }

    pub fn closed(&self) -> Vec<u8> {
        let is_closed = |stream: &u8| !self.open.contains(stream);
        STREAMS.into_iter().filter(is_closed).collect()
    }

    fn send(&mut self, request: u16, stream: (u8, u8), last: u8, payload: &[u8], record: usize) {
        if stream.1 & ENDS == 0 {
            self.open.insert(stream.0);
        } else {
            self.open.remove(&stream.0);
        }
        let bytes = frame(request, stream, last, payload);
        self.steps.push(Step::Frame { bytes, record });
    }

    pub fn begin(&mut self, random: &mut Random) -> bool {
        if self.requests.len() == SLOTS {
            return false;
        }
        let id = self.idle_id(random);
        self.begin_as(id, random);
        true
    }

    /// A good command with this id, which is idle; a slot is free.
    pub fn begin_as(&mut self, id: u16, random: &mut Random) {
        let command = good_command(random);
        let frames = random.pick(&[1, 1, 1, 2, 2, 3, 5]);
        self.begin_with(id, command, frames, random);
    }

    pub fn begin_with(&mut self, id: u16, command: Vec<u8>, frames: usize, random: &mut Random) {
        self.requests.push(Request {
            id,
            phase: Phase::Collecting,
            data: random.percent(50),
            command,
            sent: 0,
            frames,
        });
        self.piece(self.requests.len() - 1, NEW, random);
    }

    fn carry_on(&mut self, random: &mut Random) -> bool {
        let place = self.some(random, Some(Phase::Collecting));
        if let Some(place) = place {
            self.piece(place, CONTINUATION, random);
        }
        place.is_some()
    }

    /// The next piece of a command; the rest of it, if one frame is left.
    pub fn piece(&mut self, place: usize, kind: u8, random: &mut Random) {
        let stream = self.address(random);
        let request = &mut self.requests[place];
        let whole = request.frames == 1;
        let rest = request.command.len() - request.sent;
        let count = if whole { rest } else { random.between(0, rest) };
        let payload = request.command[request.sent..][..count].to_vec();
        request.sent += count;
        request.frames -= 1;
        let mut flags = kind;
        if request.data {
            flags |= WITH_DATA;
        }
        let mut record = 0;
        if whole {
            record = RECORD_HEAD + request.sent;
            request.phase = if request.data {
                Phase::Waiting
            } else {
                Phase::Running
            };
        } else {
            flags |= MORE;
        }
        let id = request.id;
        self.send(id, stream, COMMAND << 4 | flags, &payload, record);
    }

    fn data(&mut self, random: &mut Random) -> bool {
        let phase = random.pick(&[Phase::Waiting, Phase::Waiting, Phase::Draining]);
        let place = self.some(random, Some(phase));
        if let Some(place) = place {
            let count = match random.below(300) {
                0 => random.pick(&[LONGEST_PAYLOAD, LONGEST_PAYLOAD - 1]),
                1 => random.between(LONGEST_SENT + 1, LONGEST_PAYLOAD),
                2..=7 => LONGEST_SENT,
                8..=11 => LONGEST_SENT + 1,
                12..=20 => random.between(1, LONGEST_SENT),
                21..=80 => 0,
                _ => random.between(1, 40),
            };
            let last = random.percent(40);
            self.send_data(place, count, last, random);
        }
        place.is_some()
    }

    /// Data of a request that waits, or of one that drains, which makes no record.
    pub fn send_data(&mut self, place: usize, count: usize, last: bool, random: &mut Random) {
        let payload = random.bytes(count);
        let stream = self.address(random);
        let request = &mut self.requests[place];
        let (id, drains) = (request.id, request.phase == Phase::Draining);
        if last {
            request.phase = Phase::Running;
        }
        if last && drains {
            self.requests.swap_remove(place);
        }
        let flags = if last { 2 } else { 1 };
        let record = if drains { 0 } else { RECORD_HEAD + count };
        self.send(id, stream, DATA << 4 | flags, &payload, record);
    }

    pub fn settings(&mut self, random: &mut Random) -> bool {
        let closed = self.closed();
        if closed.is_empty() {
            return false;
        }
        let stream = (random.pick(&closed), BEGINS | other_stream_flags(random));
        let payload = identity(random);
        let id = random.pick(&IDS);
        self.send(id, stream, SETTINGS << 4 | 2, &payload, 0);
        true
    }

    pub fn finish(&mut self, random: &mut Random) -> bool {
        let place = self.some(random, Some(Phase::Running));
        if let Some(place) = place {
            let request = self.requests.swap_remove(place);
            self.steps.push(Step::Finish(request.id));
        }
        place.is_some()
    }

    /// A finish of an id that neither runs nor waits.
    pub fn finish_in_vain(&mut self, random: &mut Random) -> bool {
        let phase = random.pick(&[Phase::Collecting, Phase::Draining]);
        let held = self.some(random, Some(phase));
        let id = match held {
            Some(place) if random.percent(70) => self.requests[place].id,
            _ if random.percent(30) => random.pick(&[0, 2, 0x0100, 0xfffe]),
            _ => self.idle_id(random),
        };
        self.steps.push(Step::Finish(id));
        true
    }
}

/// The flags beside the beginning flag: at times the end, at times the
/// encoding.
fn other_stream_flags(random: &mut Random) -> u8 {
    let ends = if random.percent(30) { ENDS } else { 0 };
    let encoding = if random.percent(10) { 4 } else { 0 };
    ends | encoding
}
