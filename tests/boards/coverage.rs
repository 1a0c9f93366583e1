//! How often the commands meet each thing that is to be met.

use crate::counts::Counts;
use crate::reasons::{head_width, outline, Outline, Reasons};
use second::board::Board;

const NUMBERS: [u32; 8] = [0, 24, 25, 26, 40, 41, 42, 43];

/// The bytes of a head.
const WIDTHS: [usize; 5] = [1, 2, 3, 5, 9];

/// All but the numbers, the pairs of reasons, and the widths of heads.
const MET: [&str; 43] = [
    "40 though an argument is missing",
    "40 though an argument is extra",
    "40 though an argument is of the wrong type",
    "41: an argument missing",
    "41: an argument extra",
    "41: an argument of the wrong type",
    "41: `on` is null",
    "41: `off` with an argument",
    "41: `args` missing",
    "41 though the coil is outside: an argument missing",
    "41 though the coil is outside: an argument extra",
    "41 though the coil is outside: an argument of the wrong type",
    "41 though the coil is outside: `on` is null",
    "41 though the text is long: an argument missing",
    "41 though the text is long: an argument extra",
    "41 though the text is long: the coil of the wrong type",
    "42: coil 16",
    "42: coil -1",
    "42: a coil whose low byte is below 16",
    "42: a coil from 2^63 on",
    "42: coil 2^63",
    "42: a coil below -2^63",
    "42: coil -2^64",
    "42 of a set",
    "42 of a label",
    "42 though the text is long",
    "43: a text of 17 bytes",
    "43: a text of 256 bytes or more",
    "set accepted",
    "set that switches on",
    "set that switches off",
    "set that changes nothing",
    "label accepted",
    "label of no bytes",
    "label of 16 bytes",
    "label shorter than the one before",
    "label longer than the one before",
    "off accepted, and a coil was on",
    "off accepted, and a coil has a label",
    "off without args",
    "coil 0 accepted",
    "coil 15 accepted",
    "accepted with a redirect",
];

/// The arguments in the order opposite to the papers'.
const OPPOSITE: &str = "accepted with `coil` last";

pub struct Coverage {
    counts: Counts,
}

fn number_name(number: u32) -> String {
    format!("{number} answered")
}

/// A number that was answered though another one's reason was there too.
fn pair_name(number: u32, other: u32) -> String {
    format!("{number} though {other} applies")
}

/// Each number that could be swapped with the one that is told.
fn pairs() -> Vec<(u32, u32)> {
    let by_check = [24, 25, 26].map(|first| [40, 41, 42, 43].map(|other| (first, other)));
    let others = [(40, 41), (40, 42), (40, 43), (41, 42), (41, 43), (42, 43)];
    by_check.into_iter().flatten().chain(others).collect()
}

fn width_name(key: &str, width: usize) -> String {
    format!("`{key}` accepted in a head of {width} bytes")
}

impl Coverage {
    pub fn new() -> Coverage {
        let numbers = NUMBERS.into_iter().map(number_name);
        let pairs = pairs()
            .into_iter()
            .map(|(number, other)| pair_name(number, other));
        let widths = |key| WIDTHS.map(|width| width_name(key, width));
        let met = MET.into_iter().chain([OPPOSITE]).map(String::from);
        let names: Vec<String> = numbers
            .chain(pairs)
            .chain(widths("coil"))
            .chain(widths("text"))
            .chain(met)
            .collect();
        Coverage {
            counts: Counts::of(names),
        }
    }

    fn add_if(&mut self, met: bool, name: &str) {
        if met {
            self.counts.add(name);
        }
    }

    pub fn print(&self) {
        self.counts.print();
    }

    /// Something that came up in less than one of 200 commands.
    pub fn rare(&self, commands: u64) -> Option<&str> {
        self.counts.rare(|_| commands.div_ceil(200).max(1))
    }

    /// A command, what it was answered, and the board before and after it.
    pub fn command(&mut self, command: &[u8], number: u32, before: &Board, after: &Board) {
        self.add_if(true, &number_name(number));
        let Some(outline) = outline(command) else {
            return;
        };
        let reasons = outline.reasons();
        self.pairs(number, &reasons);
        match number {
            0 => self.accepted(command, &outline, before, after),
            40 => self.unknown(&reasons),
            41 => self.unfit(&outline, &reasons),
            42 => self.outside(&outline, &reasons),
            43 => {
                let length = outline.text().map_or(0, <[u8]>::len);
                self.add_if(length == 17, "43: a text of 17 bytes");
                self.add_if(length >= 256, "43: a text of 256 bytes or more");
            }
            _ => {}
        }
    }

    fn pairs(&mut self, number: u32, reasons: &Reasons) {
        let apply = [
            (40, reasons.unknown),
            (41, reasons.unfit()),
            (42, reasons.outside),
            (43, reasons.long),
        ];
        for (other, applies) in apply {
            let told = pairs().contains(&(number, other));
            self.add_if(told && applies, &pair_name(number, other));
        }
    }

    fn unknown(&mut self, reasons: &Reasons) {
        self.add_if(reasons.missing, "40 though an argument is missing");
        self.add_if(reasons.extra, "40 though an argument is extra");
        self.add_if(
            reasons.wrong_type,
            "40 though an argument is of the wrong type",
        );
    }

    fn unfit(&mut self, outline: &Outline, reasons: &Reasons) {
        for (met, what) in [
            (reasons.missing, "an argument missing"),
            (reasons.extra, "an argument extra"),
            (reasons.wrong_type, "an argument of the wrong type"),
            (reasons.null_on, "`on` is null"),
        ] {
            self.add_if(met, &format!("41: {what}"));
            self.add_if(
                met && reasons.outside,
                &format!("41 though the coil is outside: {what}"),
            );
        }
        self.add_if(outline.name == b"off", "41: `off` with an argument");
        self.add_if(outline.lacks_args, "41: `args` missing");
        if reasons.long {
            let no_coil = outline.argument(b"coil").is_some() && outline.coil().is_none();
            let long = "41 though the text is long:";
            self.add_if(reasons.missing, &format!("{long} an argument missing"));
            self.add_if(reasons.extra, &format!("{long} an argument extra"));
            self.add_if(no_coil, &format!("{long} the coil of the wrong type"));
        }
    }

    fn outside(&mut self, outline: &Outline, reasons: &Reasons) {
        let Some(coil) = outline.coil() else {
            return;
        };
        self.add_if(coil == 16, "42: coil 16");
        self.add_if(coil == -1, "42: coil -1");
        self.add_if(coil & 0xff < 16, "42: a coil whose low byte is below 16");
        self.add_if(coil >= 1 << 63, "42: a coil from 2^63 on");
        self.add_if(coil == 1 << 63, "42: coil 2^63");
        self.add_if(coil < -(1 << 63), "42: a coil below -2^63");
        self.add_if(coil == -(1 << 64), "42: coil -2^64");
        self.add_if(outline.name == b"set", "42 of a set");
        self.add_if(outline.name == b"label", "42 of a label");
        self.add_if(reasons.long, "42 though the text is long");
    }

    fn accepted(&mut self, command: &[u8], outline: &Outline, before: &Board, after: &Board) {
        self.add_if(outline.redirected, "accepted with a redirect");
        if outline.name == b"off" {
            let on = before.coils.iter().any(|coil| coil.on);
            let labelled = before.coils.iter().any(|coil| !coil.label.is_empty());
            self.add_if(on, "off accepted, and a coil was on");
            self.add_if(labelled, "off accepted, and a coil has a label");
            self.add_if(outline.lacks_args, "off without args");
            return;
        }
        for key in ["coil", "text"] {
            if let Some(width) = head_width(command, key.as_bytes()) {
                self.add_if(true, &width_name(key, width));
            }
        }
        let last = outline.args.last().is_some_and(|(key, _)| *key == b"coil");
        self.add_if(last, OPPOSITE);
        let coil = outline.coil().unwrap_or(0) as usize;
        self.add_if(coil == 0, "coil 0 accepted");
        self.add_if(coil == 15, "coil 15 accepted");
        let (old, new) = (&before.coils[coil], &after.coils[coil]);
        if outline.name == b"set" {
            self.add_if(true, "set accepted");
            self.add_if(!old.on && new.on, "set that switches on");
            self.add_if(old.on && !new.on, "set that switches off");
            self.add_if(old.on == new.on, "set that changes nothing");
        } else {
            let (old, new) = (old.label.len(), new.label.len());
            self.add_if(true, "label accepted");
            self.add_if(new == 0, "label of no bytes");
            self.add_if(new == 16, "label of 16 bytes");
            self.add_if(new < old, "label shorter than the one before");
            self.add_if(new > old, "label longer than the one before");
        }
    }
}
