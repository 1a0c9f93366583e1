//! How often the logs meet each thing that is to be met.

use generate::Conversion;
use second::log::{Log, NEW, OLD};

/// How often each must come up.
const LEAST: u64 = 20;

/// The bytes of a kind, and those of a record before its body in an old log.
const KIND: usize = 2;
const HEAD: usize = OLD + KIND;

const MET: [&str; 27] = [
    "converted",
    "70",
    "71",
    "no bytes",
    "no bytes, no output",
    "one record",
    "more than 100 records",
    "an empty body",
    "a body of 255 bytes",
    "a body of 256 bytes",
    "a body of 2,048 bytes",
    "a body of 65,535 bytes",
    "a kind that no record has",
    "a kind whose high byte counts",
    "cut where a record ends",
    "cut inside the length",
    "cut behind the length",
    "cut inside the kind",
    "cut behind the kind",
    "cut inside the body",
    "cut a byte before its end",
    "broken in the first record",
    "output exact",
    "output one byte short",
    "output longer",
    "no output, 71",
    "70 though the output is too short",
];

pub struct Coverage {
    counts: Vec<(&'static str, u64)>,
}

/// The bytes that the whole records of a log have when they are converted.
fn total(log: &Log) -> usize {
    let records = log.records.iter();
    records.map(|record| NEW + KIND + record.body.len()).sum()
}

impl Coverage {
    pub fn new() -> Coverage {
        Coverage {
            counts: MET.map(|name| (name, 0)).to_vec(),
        }
    }

    fn add_if(&mut self, met: bool, name: &str) {
        let entry = self.counts.iter_mut().find(|(known, _)| *known == name);
        entry.expect("a name of the table").1 += u64::from(met);
    }

    /// A conversion, the old log's records, and the number that was answered.
    pub fn add(&mut self, asked: &Conversion, old: &Log, number: u8) {
        let total = total(old);
        let length = asked.output;
        self.records(old);
        self.add_if(asked.cut_at_end, "cut where a record ends");
        match number {
            0 => {
                self.add_if(true, "converted");
                self.add_if(length == total, "output exact");
                self.add_if(length > total, "output longer");
                let empty = asked.log.is_empty();
                self.add_if(empty, "no bytes");
                self.add_if(empty && length == 0, "no bytes, no output");
            }
            71 => {
                self.add_if(true, "71");
                self.add_if(length + 1 == total, "output one byte short");
                self.add_if(length == 0, "no output, 71");
            }
            _ => {
                self.add_if(true, "70");
                self.add_if(length < total, "70 though the output is too short");
                self.add_if(old.records.is_empty(), "broken in the first record");
                self.cut(old.broken);
            }
        }
    }

    fn records(&mut self, old: &Log) {
        self.add_if(old.records.len() == 1, "one record");
        self.add_if(old.records.len() > 100, "more than 100 records");
        for record in &old.records {
            self.add_if(record.body.is_empty(), "an empty body");
            for (length, name) in [
                (255, "a body of 255 bytes"),
                (256, "a body of 256 bytes"),
                (second::frame::COMMAND_BYTES, "a body of 2,048 bytes"),
                (usize::from(u16::MAX), "a body of 65,535 bytes"),
            ] {
                self.add_if(record.body.len() == length, name);
            }
            let known = matches!(record.kind, [1 | 2, 0]);
            self.add_if(!known, "a kind that no record has");
            self.add_if(record.kind[1] != 0, "a kind whose high byte counts");
        }
    }

    /// Where a record is broken.
    fn cut(&mut self, broken: &[u8]) {
        let name = match broken.len() {
            1 => "cut inside the length",
            OLD => "cut behind the length",
            3 => "cut inside the kind",
            HEAD => "cut behind the kind",
            _ => "cut inside the body",
        };
        self.add_if(true, name);
        if let [low, high, _, _, body @ ..] = broken {
            let length = usize::from(u16::from_le_bytes([*low, *high]));
            self.add_if(body.len() + 1 == length, "cut a byte before its end");
        }
    }

    pub fn print(&self) {
        for (name, count) in &self.counts {
            println!("{count:>8}  {name}");
        }
    }

    /// Something that came up less often than it must, and how often.
    pub fn rare(&self) -> Option<(&str, u64)> {
        let mut counts = self.counts.iter().copied();
        counts.find(|(_, count)| *count < LEAST)
    }
}
