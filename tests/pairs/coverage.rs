//! How often the pairs meet each thing that is to be met.

use generate::{Pair, MADE};
use second::differences::{Broken, Entry};
use second::log::{read, Log, Record, NEW};

/// How often each must come up.
const LEAST: u64 = 10;

/// The bytes of a record before its body.
const HEAD: usize = NEW + 2;

const MET: [&str; 43] = [
    "no entry",
    "no entry, no bytes",
    "one entry",
    "more than 10 entries",
    "log 1 broken",
    "log 2 broken",
    "both broken",
    "broken at 0",
    "broken behind a record",
    "broken though the records before differ",
    "cut inside the length",
    "cut behind the length",
    "cut inside the kind",
    "cut behind the kind",
    "cut inside the body",
    "cut a byte before its end",
    "a claim of 4,294,967,295 bytes",
    "the first has no bytes",
    "the second has no bytes",
    "the first is longer",
    "the second is longer",
    "longer by one record",
    "longer by more records",
    "longer, and all before is equal",
    "longer, and one before differs",
    "the first record alone differs",
    "the last record alone differs",
    "a record between equal ones differs",
    "the kinds alone differ",
    "the low byte of a kind alone differs",
    "the high byte of a kind alone differs",
    "the bodies alone differ",
    "the bodies differ in the first byte alone",
    "the bodies differ in the last byte alone",
    "the lengths differ, the kinds do not",
    "a body is the front of the other",
    "an empty body against another",
    "a body of 256 bytes",
    "a body of 2,048 bytes",
    "a body of 65,535 bytes",
    "a body of 65,536 bytes",
    "a body of 65,538 bytes",
    "a kind that no record has",
];

pub struct Coverage {
    counts: Vec<(String, u64)>,
}

fn made_name(made: impl std::fmt::Debug) -> String {
    format!("made: {made:?}")
}

impl Coverage {
    pub fn new() -> Coverage {
        let names = MADE.map(made_name).into_iter();
        let names = names.chain(MET.map(String::from));
        Coverage {
            counts: names.map(|name| (name, 0)).collect(),
        }
    }

    fn add_if(&mut self, met: bool, name: &str) {
        let entry = self.counts.iter_mut().find(|(known, _)| known == name);
        entry.expect("a name of the table").1 += u64::from(met);
    }

    /// A pair, and what the second implementation has of it.
    pub fn add(&mut self, pair: &Pair, answer: &Result<Vec<Entry>, Broken>) {
        let logs = [&pair.first, &pair.second].map(|log| read(log, NEW));
        self.add_if(true, &made_name(pair.made));
        self.add_if(pair.first.is_empty(), "the first has no bytes");
        self.add_if(pair.second.is_empty(), "the second has no bytes");
        for record in logs.iter().flat_map(|log| &log.records) {
            self.record(record);
        }
        match answer {
            Ok(entries) => {
                self.entries(&logs, entries);
                let empty = pair.first.is_empty() && pair.second.is_empty();
                self.add_if(empty, "no entry, no bytes");
            }
            Err(broken) => self.broken(&logs, broken),
        }
    }

    fn record(&mut self, record: &Record) {
        for (length, name) in [
            (256, "a body of 256 bytes"),
            (2048, "a body of 2,048 bytes"),
            (65_535, "a body of 65,535 bytes"),
            (65_536, "a body of 65,536 bytes"),
            (65_538, "a body of 65,538 bytes"),
        ] {
            self.add_if(record.body.len() == length, name);
        }
        let known = matches!(record.kind, [1 | 2, 0]);
        self.add_if(!known, "a kind that no record has");
    }

    fn entries(&mut self, [first, second]: &[Log; 2], entries: &[Entry]) {
        let counts = [first.records.len(), second.records.len()];
        let both = counts[0].min(counts[1]);
        let differ = entries.iter().filter(|entry| entry.number <= both as u64);
        let places: Vec<usize> = differ.map(|entry| entry.number as usize - 1).collect();
        let more = counts[0].abs_diff(counts[1]);
        self.add_if(entries.is_empty(), "no entry");
        self.add_if(entries.len() == 1, "one entry");
        self.add_if(entries.len() > 10, "more than 10 entries");
        self.add_if(counts[0] > counts[1], "the first is longer");
        self.add_if(counts[0] < counts[1], "the second is longer");
        self.add_if(more == 1, "longer by one record");
        self.add_if(more > 1, "longer by more records");
        let equal = places.is_empty();
        self.add_if(more > 0 && equal, "longer, and all before is equal");
        self.add_if(more > 0 && !equal, "longer, and one before differs");
        if let ([place], 0) = (&places[..], more) {
            let last = *place + 1 == both;
            self.add_if(*place == 0 && !last, "the first record alone differs");
            self.add_if(*place > 0 && last, "the last record alone differs");
            let between = *place > 0 && !last;
            self.add_if(between, "a record between equal ones differs");
        }
        for place in places {
            self.differ(&first.records[place], &second.records[place]);
        }
    }

    fn differ(&mut self, one: &Record, other: &Record) {
        let kinds = one.kind != other.kind;
        let bodies = one.body != other.body;
        let lengths = one.body.len() != other.body.len();
        let bytes = [0, 1].map(|at| one.kind[at] != other.kind[at]);
        self.add_if(kinds && !bodies, "the kinds alone differ");
        let low = bytes == [true, false] && !bodies;
        let high = bytes == [false, true] && !bodies;
        self.add_if(low, "the low byte of a kind alone differs");
        self.add_if(high, "the high byte of a kind alone differs");
        self.add_if(!kinds && lengths, "the lengths differ, the kinds do not");
        let empty = one.body.is_empty() || other.body.is_empty();
        self.add_if(lengths && empty, "an empty body against another");
        let front = one.body.starts_with(other.body) || other.body.starts_with(one.body);
        let front = !kinds && lengths && !empty && front;
        self.add_if(front, "a body is the front of the other");
        if !kinds && bodies && !lengths {
            self.bodies(one.body, other.body);
        }
    }

    /// Bodies of one length that differ.
    fn bodies(&mut self, one: &[u8], other: &[u8]) {
        let end = one.len() - 1;
        self.add_if(true, "the bodies alone differ");
        let first = end > 0 && one[1..] == other[1..];
        let last = end > 0 && one[..end] == other[..end];
        self.add_if(first, "the bodies differ in the first byte alone");
        self.add_if(last, "the bodies differ in the last byte alone");
    }

    fn broken(&mut self, logs: &[Log; 2], broken: &Broken) {
        let [first, second] = logs;
        self.add_if(broken.log == 1, "log 1 broken");
        self.add_if(broken.log == 2, "log 2 broken");
        let both = !first.broken.is_empty() && !second.broken.is_empty();
        self.add_if(both, "both broken");
        self.add_if(broken.place == 0, "broken at 0");
        self.add_if(broken.place > 0, "broken behind a record");
        let mut records = first.records.iter().zip(&second.records);
        let differ = records.any(|(one, other)| one != other);
        self.add_if(differ, "broken though the records before differ");
        let log = if broken.log == 1 { first } else { second };
        self.cut(log.broken);
    }

    /// Where a record is broken.
    fn cut(&mut self, broken: &[u8]) {
        let name = match broken.len() {
            1..NEW => "cut inside the length",
            NEW => "cut behind the length",
            5 => "cut inside the kind",
            HEAD => "cut behind the kind",
            _ => "cut inside the body",
        };
        self.add_if(true, name);
        if let [a, b, c, d, _, _, body @ ..] = broken {
            let length = u32::from_le_bytes([*a, *b, *c, *d]);
            let one = body.len() + 1 == length as usize;
            self.add_if(one, "cut a byte before its end");
            self.add_if(length == u32::MAX, "a claim of 4,294,967,295 bytes");
        }
    }

    pub fn print(&self) {
        for (name, count) in &self.counts {
            println!("{count:>8}  {name}");
        }
    }

    /// Something that came up less often than it must, and how often.
    pub fn rare(&self) -> Option<(&str, u64)> {
        let mut counts = self.counts.iter();
        let rare = counts.find(|(_, count)| *count < LEAST);
        rare.map(|(name, count)| (name.as_str(), *count))
    }
}
