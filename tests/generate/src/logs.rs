//! Stored logs with body lengths of two bytes, whole and broken, and outputs to
//! convert them into.

use crate::cuts::hex;
use crate::random::Random;
use crate::sizes::{LARGEST_OUTPUT, LONGEST_COMMAND, LONGEST_LINE};

/// The bytes of a record before its body, and the longest body.
const HEAD: usize = 4;
const LONGEST_BODY: usize = u16::MAX as usize;
/// What a conversion adds to each record.
const MORE: usize = 2;

/// A log, and the places behind its records as they were made.
struct Log {
    bytes: Vec<u8>,
    ends: Vec<usize>,
}

/// A line `convert`, word by word.
pub struct Conversion {
    pub output: usize,
    pub log: Vec<u8>,
    /// Whether it was cut where a record ends.
    pub cut_at_end: bool,
}

impl Conversion {
    /// The conversion, a question about its output, and one about the log.
    pub fn lines(&self) -> [String; 3] {
        let log = hex(&self.log);
        let convert = format!("convert {} {log}", self.output);
        [convert, "tail".to_string(), format!("whole {log}")]
    }
}

/// The conversion of this seed and index.
pub fn conversion(seed: u64, index: u64) -> Conversion {
    let start = Random::new(seed ^ 0x1065).next() ^ Random::new(!index).next();
    let random = &mut Random::new(start);
    let mut log = Log::new(random);
    let total = log.bytes.len() + MORE * log.ends.len();
    match random.below(20) {
        0..=8 => {}
        9..=14 => log.cut(random),
        15 | 16 => log.lie(random),
        17 => log.bytes.extend(garbage(random)),
        18 => log.bytes = garbage(random),
        _ => log.cut_at_end(random),
    }
    let shorter = log.ends.last().is_some_and(|end| log.bytes.len() < *end);
    let cut_at_end = shorter && (log.bytes.is_empty() || log.ends.contains(&log.bytes.len()));
    let kept = log.ends.iter().filter(|end| **end <= log.bytes.len());
    let left = log.bytes.len() + MORE * kept.count();
    Conversion {
        output: output(random.pick(&[total, left, left]), random),
        log: log.bytes,
        cut_at_end,
    }
}

impl Log {
    /// Records with any kinds, mostly few and short.
    fn new(random: &mut Random) -> Log {
        let count = match random.below(40) {
            0..=3 => 0,
            4..=30 => random.between(1, 6),
            31..=38 => random.between(7, 30),
            _ => random.between(31, 300),
        };
        let mut log = Log {
            bytes: Vec::new(),
            ends: Vec::new(),
        };
        for _ in 0..count {
            let length = body_length(count, random);
            log.push(length, random);
            if log.bytes.len() > LONGEST_LINE / 3 {
                break;
            }
        }
        log
    }

    fn push(&mut self, length: usize, random: &mut Random) {
        let any = [random.byte(), random.byte()];
        let kind = random.pick(&[[1, 0], [2, 0], [0, 0], [0xff, 0xff], any, any]);
        self.bytes.extend((length as u16).to_le_bytes());
        self.bytes.extend(kind);
        self.bytes.extend(random.bytes(length));
        self.ends.push(self.bytes.len());
    }

    /// Ends in its last part or in any: in a record's length, its kind or its body.
    fn cut(&mut self, random: &mut Random) {
        let starts = [0].into_iter().chain(self.ends.iter().copied());
        let starts: Vec<usize> = starts.take(self.ends.len()).collect();
        if starts.is_empty() {
            return;
        }
        let start = random.pick(&starts);
        let body = random.between(HEAD, HEAD + 40);
        let inside = random.pick(&[1, 2, 3, HEAD, body, body]);
        let end = match random.below(8) {
            0 => random.below(self.bytes.len() + 1),
            1 => self.bytes.len() - 1,
            _ => start + inside,
        };
        self.bytes.truncate(end);
    }

    fn cut_at_end(&mut self, random: &mut Random) {
        let ends: Vec<usize> = [0].into_iter().chain(self.ends.iter().copied()).collect();
        self.bytes.truncate(random.pick(&ends));
    }

    /// A length that is not its body's.
    fn lie(&mut self, random: &mut Random) {
        let count = self.ends.len();
        if count == 0 {
            return;
        }
        let place = random.below(count);
        let start = if place == 0 { 0 } else { self.ends[place - 1] };
        match random.below(3) {
            0 => self.bytes[start] ^= 1 << random.below(8),
            1 => self.bytes[start + 1] ^= 1 << random.below(8),
            _ => self.bytes[start] = self.bytes[start].wrapping_add(1),
        }
    }
}

/// Seldom a long body, and in a log of many records none.
fn body_length(count: usize, random: &mut Random) -> usize {
    let long = if count > 6 { 4 } else { 0 };
    match random.below(1000) + long {
        0 => LONGEST_BODY,
        1 => random.between(LONGEST_COMMAND, LONGEST_BODY),
        2 | 3 => LONGEST_COMMAND,
        4..=40 => random.pick(&[255, 256, 257, 300]),
        41..=250 => 0,
        _ => random.between(1, 30),
    }
}

/// Bytes without any sense, or ones that are often small.
fn garbage(random: &mut Random) -> Vec<u8> {
    let count = random.between(1, 40);
    match random.below(2) {
        0 => random.bytes(count),
        _ => (0..count)
            .map(|_| random.pick(&[0, 0, 0, 1, 2, 5]))
            .collect(),
    }
}

/// As long as the total, one byte short, longer, or far too short.
fn output(total: usize, random: &mut Random) -> usize {
    let output = match random.below(12) {
        0..=3 => total,
        4..=6 => total.saturating_sub(1),
        7 => total + 1,
        8 => total + random.between(2, 40),
        9 => 0,
        10 => random.below(total + 1),
        _ => 2 * total + 9,
    };
    output.min(LARGEST_OUTPUT)
}
