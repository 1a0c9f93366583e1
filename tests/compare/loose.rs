//! How often the commands meet loose heads, by place, width, type and number.

use crate::counts::Counts;
use generate::{heads, Head, Place};
use second::command::loose;
use second::value::is_loose;

/// The infos of the heads with more than one byte, and for each the bytes behind
/// the first and the least number for which they are needed.
const WIDTHS: [(u8, &str, u64); 4] = [
    (24, "one byte", 24),
    (25, "two bytes", 256),
    (26, "four bytes", 65_536),
    (27, "eight bytes", 1 << 32),
];

const TYPES: [(u8, &str); 6] = [
    (0, "an unsigned integer"),
    (1, "a negative integer"),
    (2, "a byte string"),
    (4, "an array"),
    (5, "a map"),
    (6, "a tag"),
];

const MET: [&str; 6] = [
    "accepted, no head loose",
    "accepted, several heads loose",
    "accepted, every head loose",
    "24 for bytes left over, else loose",
    "25 of a loose item",
    "26 of a loose item",
];

pub struct Coverage {
    counts: Counts,
}

fn place_name(place: Place, width: &str) -> String {
    format!("one loose head: {}, by {width}", place.name())
}

fn type_name(what: &str) -> String {
    format!("one loose head: of {what}")
}

fn largest_name(width: &str, least: u64) -> String {
    format!("one loose head: {} by {width}", least - 1)
}

fn least_name(width: &str, least: u64) -> String {
    format!("no head loose: {least} by {width}")
}

/// With two bytes behind the first, 258 is shortest.
fn can_be_loose(place: Place, info: u8) -> bool {
    place != Place::SetTag || info > 25
}

impl Coverage {
    pub fn new() -> Coverage {
        let mut names: Vec<String> = MET.map(String::from).to_vec();
        for place in Place::ALL {
            let widths = WIDTHS.iter().filter(|row| can_be_loose(place, row.0));
            names.extend(widths.map(|(_, width, _)| place_name(place, width)));
        }
        names.extend(TYPES.map(|(_, what)| type_name(what)));
        names.extend(WIDTHS.map(|(_, width, least)| largest_name(width, least)));
        names.extend(WIDTHS.map(|(_, width, least)| least_name(width, least)));
        Coverage {
            counts: Counts::of(names),
        }
    }

    pub fn print(&self) {
        self.counts.print();
    }

    /// Something that came up in less than one of 500 commands.
    pub fn rare(&self, commands: u64) -> Option<&str> {
        self.counts.rare(|_| commands.div_ceil(500).max(1))
    }

    fn add_if(&mut self, met: bool, name: &str) {
        if met {
            self.counts.add(name);
        }
    }

    /// A command, what the check answers, and the mark.
    pub fn command(&mut self, command: &[u8], number: u32, marked: bool) {
        match number {
            0 => {
                let heads = heads(command);
                let loose = heads.iter().any(Head::is_loose);
                assert_eq!(loose, marked, "the heads are as the mark says");
                self.accepted(&heads);
            }
            24 => {
                let longest = command.len();
                let mut ends = longest.saturating_sub(4)..longest;
                let left_over = ends.any(|end| loose(&command[..end]));
                self.add_if(left_over, "24 for bytes left over, else loose");
            }
            _ => self.add_if(is_loose(command), &format!("{number} of a loose item")),
        }
    }

    fn accepted(&mut self, heads: &[Head]) {
        let loose: Vec<&Head> = heads.iter().filter(|head| head.is_loose()).collect();
        match loose[..] {
            [] => self.shortest(heads),
            [head] => self.one(head),
            _ => {
                self.add_if(true, "accepted, several heads loose");
                let all = loose.len() == heads.len();
                self.add_if(all, "accepted, every head loose");
            }
        }
    }

    fn shortest(&mut self, heads: &[Head]) {
        self.add_if(true, "accepted, no head loose");
        for (info, width, least) in WIDTHS {
            let met = |head: &Head| (head.info, head.number) == (info, least);
            self.add_if(heads.iter().any(met), &least_name(width, least));
        }
    }

    fn one(&mut self, head: &Head) {
        let row = WIDTHS.iter().find(|row| row.0 == head.info);
        let (_, width, least) = *row.expect("a loose head has more than one byte");
        self.add_if(true, &place_name(head.place, width));
        let kind = TYPES.iter().find(|row| row.0 == head.major);
        self.add_if(true, &type_name(kind.expect("a type with a number").1));
        self.add_if(head.number == least - 1, &largest_name(width, least));
    }
}
