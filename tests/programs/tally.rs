//! How often the lines of `receive` come up, by their kind.

use second::sender::SIZE;
use std::collections::BTreeMap;

/// How often each kind must come up.
const LEAST: u64 = 5;

#[derive(Default)]
pub struct Tally {
    counts: BTreeMap<String, u64>,
}

/// The kinds of lines: records by their bit, commands by their mark too, data of more
/// bytes than are sent in a frame, those with a redirect, a set, a byte string as text
/// or in hex, the end inside a frame, and each refusal by its number.
fn kinds() -> impl Iterator<Item = String> {
    let records = [
        "command data 0 loose 0",
        "command data 1 loose 0",
        "command data 0 loose 1",
        "command data 1 loose 1",
        "data last 0",
        "data last 1",
    ];
    let others = ["large data", "redirect", "258", "'", "h'", "the input"];
    let refusals = (11..=29).map(|number| format!("refused {number}"));
    records
        .into_iter()
        .chain(others)
        .map(String::from)
        .chain(refusals)
}

impl Tally {
    pub fn add(&mut self, text: &str) {
        for line in text.lines() {
            self.count("lines");
            let words: Vec<&str> = line.split(' ').take(6).collect();
            match words[..] {
                ["refused", number, ..] => self.count(&format!("refused {number}")),
                ["command", _, "data", bit, "loose", mark] => {
                    self.count(&format!("command data {bit} loose {mark}"))
                }
                ["data", _, "last", bit, count, _] => {
                    self.count(&format!("data last {bit}"));
                    if count.parse().is_ok_and(|count: u64| count > SIZE) {
                        self.count("large data");
                    }
                }
                _ => self.count("the input"),
            }
            for part in [" redirect {", "258([", " '", " h'"] {
                if line.contains(part) {
                    self.count(part.trim_matches(&[' ', '{', '(', '['][..]));
                }
            }
        }
    }

    fn count(&mut self, kind: &str) {
        *self.counts.entry(kind.to_string()).or_default() += 1;
    }

    fn times(&self, kind: &str) -> u64 {
        self.counts.get(kind).copied().unwrap_or(0)
    }

    pub fn lines(&self) -> u64 {
        self.times("lines")
    }

    /// An error names the kind that came up too seldom.
    pub fn check(&self) -> Result<(), String> {
        match kinds().find(|kind| self.times(kind) < LEAST) {
            None => Ok(()),
            Some(kind) => {
                let times = self.times(&kind);
                Err(format!(
                    "\"{kind}\" came up {times} times, less than {LEAST}"
                ))
            }
        }
    }
}
