//! Pairs of logs with body lengths of four bytes, to be compared: a log, and the
//! same with a change, or another one.

use crate::cuts::hex;
use crate::random::Random;
use crate::sizes::{LONGEST_COMMAND, LONGEST_LINE, LONGEST_PAYLOAD};

/// The bytes of a length, and of a record before its body.
const LENGTH: usize = 4;
const HEAD: usize = LENGTH + 2;
/// The longest body of a receiver's record: three bytes and a payload.
const LONGEST_BODY: usize = 3 + LONGEST_PAYLOAD;
/// The most bytes of a log, so that a line has room for two in hex.
const LONGEST_LOG: usize = LONGEST_LINE / 5;

/// How a pair is made of a log. Which of the two then has the change is drawn.
#[derive(Clone, Copy, Debug, PartialEq, Eq)]
pub enum Made {
    Equal,
    Empty,
    Unlike,
    Length,
    Kind,
    Kinds,
    Body,
    LastOfBody,
    Longer,
    Dropped,
    Added,
    Swapped,
    More,
    Several,
    Cut,
    CutAtEnd,
    BothCut,
    Claim,
}

pub const MADE: [Made; 18] = [
    Made::Equal,
    Made::Empty,
    Made::Unlike,
    Made::Length,
    Made::Kind,
    Made::Kinds,
    Made::Body,
    Made::LastOfBody,
    Made::Longer,
    Made::Dropped,
    Made::Added,
    Made::Swapped,
    Made::More,
    Made::Several,
    Made::Cut,
    Made::CutAtEnd,
    Made::BothCut,
    Made::Claim,
];

pub struct Pair {
    pub first: Vec<u8>,
    pub second: Vec<u8>,
    pub made: Made,
}

impl Pair {
    /// The line that asks for the comparison.
    pub fn line(&self) -> String {
        format!("compare {} {}", hex(&self.first), hex(&self.second))
    }
}

#[derive(Clone)]
struct Record {
    kind: [u8; 2],
    body: Vec<u8>,
}

/// The pair of this seed and index.
pub fn pair(seed: u64, index: u64) -> Pair {
    let start = Random::new(seed ^ 0x9a12).next() ^ Random::new(!index).next();
    let random = &mut Random::new(start);
    let made = random.pick(&MADE);
    let one = match made {
        Made::Empty => Vec::new(),
        _ => log(random),
    };
    let mut other = one.clone();
    change(made, &mut other, random);
    let (mut one, mut other) = (bytes(&one), bytes(&other));
    damage(made, &mut one, &mut other, random);
    let [first, second] = match random.below(2) {
        0 => [one, other],
        _ => [other, one],
    };
    Pair {
        first,
        second,
        made,
    }
}

/// Records with any kinds, mostly few and short.
fn log(random: &mut Random) -> Vec<Record> {
    let count = match random.below(40) {
        0 => 0,
        1..=30 => random.between(1, 6),
        31..=38 => random.between(7, 30),
        _ => random.between(31, 300),
    };
    let mut total = 0;
    let mut log = Vec::new();
    while log.len() < count && total < LONGEST_LOG - LONGEST_BODY {
        let record = record(count, random);
        total += HEAD + record.body.len();
        log.push(record);
    }
    log
}

fn record(count: usize, random: &mut Random) -> Record {
    let length = body_length(count, random);
    Record {
        kind: kind(random),
        body: random.bytes(length),
    }
}

fn kind(random: &mut Random) -> [u8; 2] {
    let any = [random.byte(), random.byte()];
    random.pick(&[[1, 0], [2, 0], [0, 0], [0, 1], [0xff, 0xff], any])
}

/// Seldom a long body, and in a log of many records none.
fn body_length(count: usize, random: &mut Random) -> usize {
    let long = if count > 6 { 20 } else { 0 };
    match random.below(1000) + long {
        0..=4 => LONGEST_BODY,
        5..=9 => random.pick(&[0xffff, 0x1_0000]),
        10..=19 => LONGEST_COMMAND,
        20..=60 => random.pick(&[255, 256, 257, 300]),
        61..=270 => 0,
        _ => random.between(1, 12),
    }
}

/// Changes that leave a log whole.
fn change(made: Made, log: &mut Vec<Record>, random: &mut Random) {
    match made {
        Made::Empty if random.percent(60) => *log = self::log(random),
        Made::Unlike => *log = self::log(random),
        Made::Kind => kinds(1, log, random),
        Made::Kinds => kinds(random.between(2, 9), log, random),
        Made::Body | Made::LastOfBody => body(made, log, random),
        Made::Longer => longer(log, random),
        Made::Dropped => dropped(log, random),
        Made::Added => {
            let place = random.below(log.len() + 1);
            log.insert(place, record(log.len(), random));
        }
        Made::Swapped if log.len() > 1 => {
            let place = random.below(log.len() - 1);
            log.swap(place, place + 1);
        }
        Made::More => {
            let more = random.between(1, 5);
            log.extend((0..more).map(|_| record(7, random)));
        }
        Made::Several => {
            for _ in 0..random.between(2, 4) {
                let made = random.pick(&MADE[4..13]);
                change(made, log, random);
            }
        }
        _ => {}
    }
}

/// Other kinds, in one byte of each, of some records.
fn kinds(count: usize, log: &mut [Record], random: &mut Random) {
    let length = log.len();
    for _ in 0..count.min(length) {
        let place = random.below(length);
        log[place].kind[random.below(2)] ^= 1 << random.below(8);
    }
}

/// Another byte of a body, of one that has some.
fn body(made: Made, log: &mut [Record], random: &mut Random) {
    let filled = log.iter_mut().filter(|record| !record.body.is_empty());
    let mut filled: Vec<&mut Record> = filled.collect();
    if filled.is_empty() {
        return;
    }
    let place = random.below(filled.len());
    let body = &mut filled[place].body;
    let place = match made {
        Made::LastOfBody => body.len() - 1,
        _ if random.percent(30) => 0,
        _ => random.below(body.len()),
    };
    body[place] ^= 1 << random.below(8);
}

/// A byte more at the end of a body.
fn longer(log: &mut [Record], random: &mut Random) {
    let length = log.len();
    if length > 0 {
        log[random.below(length)].body.push(random.byte());
    }
}

/// A record less, or all from one on.
fn dropped(log: &mut Vec<Record>, random: &mut Random) {
    if log.is_empty() {
        return;
    }
    let place = random.below(log.len());
    match random.below(3) {
        0 => log.truncate(place),
        _ => {
            log.remove(place);
        }
    }
}

fn bytes(log: &[Record]) -> Vec<u8> {
    let parts = log.iter().flat_map(|record| {
        let length = (record.body.len() as u32).to_le_bytes();
        [length.to_vec(), record.kind.to_vec(), record.body.clone()]
    });
    parts.collect::<Vec<_>>().concat()
}

/// Changes of the bytes, which may break a log.
fn damage(made: Made, one: &mut Vec<u8>, other: &mut Vec<u8>, random: &mut Random) {
    match made {
        Made::Length => {
            let starts = starts(other);
            if !starts.is_empty() {
                let place = random.pick(&starts) + random.pick(&[0, 0, 0, 1, 2, 3]);
                other[place] ^= 1 << random.below(8);
            }
        }
        Made::Cut => cut(other, random),
        Made::CutAtEnd => {
            let starts = starts(other);
            other.truncate(random.pick(&[&starts[..], &[0]].concat()));
        }
        Made::BothCut => {
            cut(one, random);
            cut(other, random);
        }
        Made::Claim => claim(other, random),
        _ => {}
    }
}

/// Where the records of a whole log start.
fn starts(log: &[u8]) -> Vec<usize> {
    let mut starts = Vec::new();
    let mut start = 0;
    while let Some(head) = log.get(start..start + HEAD) {
        starts.push(start);
        let length = u32::from_le_bytes([head[0], head[1], head[2], head[3]]);
        start += HEAD + length as usize;
    }
    starts
}

/// Ends in a record's length, its kind or its body, or anywhere.
fn cut(log: &mut Vec<u8>, random: &mut Random) {
    let starts = starts(log);
    if starts.is_empty() {
        return;
    }
    let inside = random.pick(&[1, 2, 3, LENGTH, LENGTH, 5, HEAD, HEAD + 5]);
    let end = match random.below(6) {
        0 => random.below(log.len() + 1),
        1 | 2 => log.len() - 1,
        _ => random.pick(&starts) + inside,
    };
    log.truncate(end);
}

/// A record more whose length is far more than what follows.
fn claim(log: &mut Vec<u8>, random: &mut Random) {
    let length = random.pick(&[u32::MAX, u32::MAX - 5, 1 << 31, 1 << 24, 40]);
    log.extend(length.to_le_bytes());
    log.extend(kind(random));
    let count = random.below(40);
    log.extend(random.bytes(count));
}
