//! What must come up in a run: every answer of every call, and the lengths at
//! which buffers are too short or just long enough.

use hgrpc::{OUTPUT, WORK};
use second::state::FRAME_PLACES;
use std::collections::BTreeSet;

/// One record with the longest body.
pub const LONGEST_LOG: usize = 2 + 2 + u16::MAX as usize;

/// The answers that begin with a number.
const NUMBERED: [&str; 13] = [
    "fed",
    "finished",
    "active",
    "row",
    "checked",
    "named",
    "argument",
    "integer",
    "sent",
    "converted",
    "compared",
    "counted",
    "loose",
];

#[derive(Default)]
pub struct Met {
    seen: BTreeSet<(String, usize)>,
}

/// The lengths of a word in hex that stand for bytes.
fn spelled(word: &str) -> usize {
    match word {
        "-" => 0,
        _ => word.len() / 2,
    }
}

impl Met {
    pub fn line(&mut self, line: &str, answer: &str) {
        let asked: Vec<&str> = line.split(' ').collect();
        let told: Vec<&str> = answer.split(' ').collect();
        if NUMBERED.contains(&told[0]) {
            self.see(told[0], told[1].parse().expect("a number"));
        }
        match (told[0], &asked[..]) {
            ("fresh", [_, length, ..]) => self.see("work", length.parse().expect("a number")),
            ("fed", [_, length, input]) => {
                self.see("output", length.parse().expect("a number"));
                self.see("input", spelled(input));
            }
            ("row", [_, entries]) => self.row(&told, entries),
            ("board", [_, command]) if *command != "fresh" => {
                self.see("board", told[1].parse().expect("a number"));
                self.see("applied", spelled(command));
            }
            ("argument", [_, command, key]) => {
                self.see("command", spelled(command));
                self.see("key", spelled(key));
            }
            ("converted", [_, length, log]) => self.converted(&told, length, log),
            ("compared", [_, first, second]) => self.compared(&told, first, second),
            ("whole", [_, log]) => {
                let whole = told[1].parse() == Ok(spelled(log));
                self.see_if(whole, "whole");
                self.see_if(!whole, "broken");
            }
            ("sent", [_, length, name, _, pairs, .., data]) => {
                self.see("name", spelled(name));
                self.see("pairs", spelled(pairs));
                self.see("frames", length.parse().expect("a number"));
                if *data != "none" {
                    self.see("data", spelled(data));
                }
                self.see_if(told[1] == "0" && told[2] == *length, "filled");
            }
            _ => {}
        }
    }

    fn row(&mut self, told: &[&str], entries: &str) {
        self.see("entries", entries.parse().expect("a number"));
        for (number, letter) in "fcwrd".chars().enumerate() {
            let end = format!(":{letter}");
            if told.iter().any(|word| word.ends_with(&end)) {
                self.see("phase", number);
            }
        }
    }

    fn converted(&mut self, told: &[&str], length: &str, log: &str) {
        self.see("log", spelled(log));
        self.see("new log", length.parse().expect("a number"));
        self.see_if(told[1] == "0" && told[2] == length, "new log filled");
    }

    fn compared(&mut self, told: &[&str], first: &str, second: &str) {
        self.see("first log", spelled(first));
        self.see("second log", spelled(second));
        self.see_if(told == ["compared", "0", "0"], "equal logs");
    }

    fn see_if(&mut self, met: bool, what: &str) {
        if met {
            self.see(what, 1);
        }
    }

    fn see(&mut self, what: &str, number: usize) {
        self.seen.insert((what.to_string(), number));
    }

    /// Something that must come up and did not.
    pub fn missing(&self) -> Option<String> {
        let mut wanted = channel().into_iter().chain(others());
        let missing = wanted.find_map(|(what, numbers)| {
            let seen = |number: &usize| self.seen.contains(&(what.to_string(), *number));
            let mut numbers = numbers.into_iter();
            Some((what, numbers.find(|number| !seen(number))?))
        });
        missing.map(|(what, number)| format!("{what} {number}"))
    }
}

/// What must come up of the channel's calls.
fn channel() -> [(&'static str, Vec<usize>); 9] {
    let fed = [0, 1, 2, 3, 5].into_iter().chain(11..=29).collect();
    let finished = [0, 3, 4].into_iter().chain(11..=29).collect();
    [
        ("fed", fed),
        ("finished", finished),
        ("active", vec![0, 3]),
        ("row", vec![0, 3, 9]),
        ("entries", vec![0, 1, 7, 8, 9]),
        ("phase", vec![0, 1, 2, 3, 4]),
        (
            "work",
            vec![0, 1, 7, 8, FRAME_PLACES, WORK - 1, WORK, WORK + 1],
        ),
        ("output", vec![0, 1, OUTPUT - 1, OUTPUT, OUTPUT + 1]),
        ("input", vec![0, 1, 7, 8, 9, FRAME_PLACES]),
    ]
}

/// What must come up of all others.
fn others() -> [(&'static str, Vec<usize>); 26] {
    [
        ("checked", vec![0, 24, 25, 26]),
        ("named", vec![0, 24, 25, 26]),
        ("argument", vec![0, 24, 25, 26, 6]),
        ("integer", vec![0, 24, 25, 26, 6, 7, 8]),
        ("command", vec![0, 1]),
        ("key", vec![0, 1]),
        ("sent", vec![0, 50, 51, 52, 53, 54]),
        ("name", vec![0, 1, 64, 65]),
        ("pairs", vec![0]),
        ("data", vec![0, 1]),
        ("frames", vec![0, 1, 7, 8]),
        ("filled", vec![1]),
        ("converted", vec![0, 70, 71]),
        ("log", vec![0, 1, 2, 3, 4, 5, LONGEST_LOG]),
        ("new log", vec![0, 5, 6, LONGEST_LOG + 2]),
        ("new log filled", vec![1]),
        ("whole", vec![1]),
        ("broken", vec![1]),
        ("compared", vec![0, 1, 2]),
        ("first log", vec![0, 6, 7]),
        ("second log", vec![0, 6, 7]),
        ("equal logs", vec![1]),
        ("counted", vec![0, 1, 2]),
        ("loose", vec![0, 1]),
        ("board", vec![0, 24, 25, 26, 40, 41, 42, 43]),
        ("applied", vec![10, 26]),
    ]
}
