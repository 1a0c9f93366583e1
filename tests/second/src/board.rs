//! The board of E3. A command's arguments become a map of values; each command
//! has a row that says what it takes, and the refusals stand in one table in
//! their order. A coil's label is kept apart from the places behind it.

use crate::command;
use crate::value::Value;
use std::collections::BTreeMap;

pub const COILS: usize = 16;
/// The longest label.
pub const LABEL: usize = 16;
/// The bytes of a coil: its switch, its label's length, and the label's places.
const COIL: usize = 2 + LABEL;
pub const BOARD: usize = COILS * COIL;

#[derive(Clone, Debug, PartialEq, Eq)]
pub struct Coil {
    pub on: bool,
    pub label: Vec<u8>,
    /// The places that the label leaves unused.
    unused: Vec<u8>,
}

#[derive(Clone, Debug, PartialEq, Eq)]
pub struct Board {
    pub coils: Vec<Coil>,
}

type Fits = fn(&Value) -> bool;
/// The arguments of a command: the name of each, and what its value must be.
type Taken = &'static [(&'static [u8], Fits)];

const COMMANDS: [(&[u8], Taken); 3] = [
    (b"set", &[(b"coil", is_integer), (b"on", is_switch)]),
    (b"label", &[(b"coil", is_integer), (b"text", is_text)]),
    (b"off", &[]),
];

fn is_integer(value: &Value) -> bool {
    matches!(value, Value::Unsigned(_) | Value::Negative(_))
}

fn is_switch(value: &Value) -> bool {
    matches!(value, Value::True | Value::False)
}

fn is_text(value: &Value) -> bool {
    matches!(value, Value::Bytes(_))
}

/// A command that passed the check.
struct Asked<'a> {
    name: &'a [u8],
    arguments: BTreeMap<&'a [u8], Value<'a>>,
}

type Refused = fn(&Asked) -> bool;

/// The refusals in their order.
const REFUSALS: [(u32, Refused); 4] = [
    (40, |asked| asked.taken().is_none()),
    (41, |asked| !asked.fits(asked.taken().unwrap_or_default())),
    (42, |asked| asked.is_outside()),
    (43, |asked| asked.is_long()),
];

impl<'a> Asked<'a> {
    fn read(bytes: &'a [u8]) -> Result<Asked<'a>, u32> {
        let command = command::read(bytes).map_err(command::Refusal::number)?;
        let mut arguments = BTreeMap::new();
        for (key, value) in command.args.unwrap_or_default() {
            if let Value::Bytes(key) = key {
                arguments.insert(key, value);
            }
        }
        let name = command.name;
        Ok(Asked { name, arguments })
    }

    fn taken(&self) -> Option<Taken> {
        let row = COMMANDS.iter().find(|(name, _)| *name == self.name);
        row.map(|(_, taken)| *taken)
    }

    /// Whether these are its arguments, all of them, and no others.
    fn fits(&self, taken: Taken) -> bool {
        let good = |(key, fits): &(&[u8], Fits)| self.arguments.get(key).is_some_and(fits);
        taken.iter().all(good) && self.arguments.len() == taken.len()
    }

    /// The coil that is meant, if there is such a one.
    fn coil(&self) -> Option<usize> {
        match self.arguments.get(&b"coil"[..])? {
            Value::Unsigned(number) if *number < COILS as u64 => Some(*number as usize),
            _ => None,
        }
    }

    /// Whether `coil` is an integer, but none of a coil.
    fn is_outside(&self) -> bool {
        let given = self.arguments.get(&b"coil"[..]);
        given.is_some_and(is_integer) && self.coil().is_none()
    }

    fn text(&self) -> Option<&'a [u8]> {
        match self.arguments.get(&b"text"[..])? {
            Value::Bytes(text) => Some(text),
            _ => None,
        }
    }

    fn is_long(&self) -> bool {
        self.text().is_some_and(|text| text.len() > LABEL)
    }

    fn on(&self) -> bool {
        self.arguments.get(&b"on"[..]) == Some(&Value::True)
    }
}

impl Coil {
    fn read(bytes: &[u8]) -> Option<Coil> {
        let (head, places) = bytes.split_at(2);
        let (label, unused) = places.split_at_checked(head[1].into())?;
        let on = match head[0] {
            0 => false,
            1 => true,
            _ => return None,
        };
        Some(Coil {
            on,
            label: label.to_vec(),
            unused: unused.to_vec(),
        })
    }

    /// All sixteen, those that are not used too.
    pub fn places(&self) -> Vec<u8> {
        [&self.label[..], &self.unused].concat()
    }

    fn rename(&mut self, text: &[u8]) {
        self.label = text.to_vec();
        self.unused = vec![0; LABEL - text.len()];
    }
}

impl Board {
    /// All off, with empty labels.
    pub fn first() -> Board {
        let coil = Coil {
            on: false,
            label: vec![],
            unused: vec![0; LABEL],
        };
        Board {
            coils: vec![coil; COILS],
        }
    }

    /// None if the bytes are no board.
    pub fn read(bytes: &[u8]) -> Option<Board> {
        if bytes.len() != BOARD {
            return None;
        }
        let coils: Option<Vec<Coil>> = bytes.chunks(COIL).map(Coil::read).collect();
        Some(Board { coils: coils? })
    }

    pub fn write(&self) -> Vec<u8> {
        let mut bytes = Vec::new();
        for coil in &self.coils {
            bytes.extend([u8::from(coil.on), coil.label.len() as u8]);
            bytes.extend(coil.places());
        }
        bytes
    }

    /// Does what is asked, which nothing refuses: only `off` names no coil.
    fn act(&mut self, asked: &Asked) {
        let Some(coil) = asked.coil() else {
            self.coils.iter_mut().for_each(|coil| coil.on = false);
            return;
        };
        match asked.text() {
            Some(text) => self.coils[coil].rename(text),
            None => self.coils[coil].on = asked.on(),
        }
    }

    /// 0 if the command is done; else its refusal, and nothing has changed.
    pub fn apply(&mut self, bytes: &[u8]) -> u32 {
        let asked = match Asked::read(bytes) {
            Ok(asked) => asked,
            Err(number) => return number,
        };
        if let Some((number, _)) = REFUSALS.iter().find(|(_, refused)| refused(&asked)) {
            return *number;
        }
        self.act(&asked);
        0
    }
}

#[cfg(test)]
mod tests {
    use super::*;

    /// The command of a name, with as many arguments as there are pairs.
    fn command(name: &str, pairs: &[(&str, &[u8])]) -> Vec<u8> {
        let string = |text: &str| [&[0x40 | text.len() as u8], text.as_bytes()].concat();
        let mut bytes = [&b"\xa2\x44name"[..], &string(name), b"\x44args"].concat();
        bytes.push(0xa0 | pairs.len() as u8);
        for (key, value) in pairs {
            bytes.extend(string(key));
            bytes.extend(*value);
        }
        bytes
    }

    fn set(coil: &[u8], on: &[u8]) -> Vec<u8> {
        command("set", &[("coil", coil), ("on", on)])
    }

    fn label(coil: &[u8], text: &[u8]) -> Vec<u8> {
        let text = [&[0x58, text.len() as u8], text].concat();
        command("label", &[("text", &text), ("coil", coil)])
    }

    #[test]
    fn switches_and_labels() {
        let mut board = Board::first();
        for (command, number) in [
            (set(b"\x03", b"\xf5"), 0),
            (set(b"\x19\0\x0f", b"\xf5"), 0),
            (label(b"\x03", b"a long label"), 0),
            (label(b"\x03", b"short"), 0),
            (set(b"\x0f", b"\xf4"), 0),
        ] {
            assert_eq!(board.apply(&command), number);
        }
        let on: Vec<bool> = board.coils.iter().map(|coil| coil.on).collect();
        assert_eq!(on, (0..16).map(|coil| coil == 3).collect::<Vec<_>>());
        assert_eq!(board.coils[3].places(), b"short\0\0\0\0\0\0\0\0\0\0\0");
        assert_eq!(board.apply(b"\xa1\x44name\x43off"), 0);
        assert!(board.coils.iter().all(|coil| !coil.on));
        assert_eq!(board.coils[3].label, b"short");
    }

    #[test]
    fn refusals_in_order() {
        let long = [b'x'; 17];
        let mut board = Board::first();
        board.apply(&set(b"\x01", b"\xf5"));
        let before = board.clone();
        for (command, number) in [
            (b"".to_vec(), 24),
            (b"\xa1\x44name\x40".to_vec(), 25),
            (b"\xa2\x44name\x41a\x44name\x41a".to_vec(), 26),
            (command("toggle", &[("coil", b"\x18\x63")]), 40),
            (command("set", &[("coil", b"\x18\x63")]), 41),
            (set(b"\x41\x03", b"\xf5"), 41),
            (set(b"\x03", b"\xf6"), 41),
            (command("off", &[("coil", b"\x03")]), 41),
            (
                command("label", &[("coil", b"\x03"), ("text", b"\x03")]),
                41,
            ),
            (set(b"\x10", b"\xf4"), 42),
            (set(b"\x20", b"\xf4"), 42),
            (set(b"\x1b\x80\0\0\0\0\0\0\0", b"\xf4"), 42),
            (set(b"\x3b\xff\xff\xff\xff\xff\xff\xff\xff", b"\xf4"), 42),
            (label(b"\x10", &long), 42),
            (label(b"\x01", &long), 43),
        ] {
            assert_eq!(board.apply(&command), number, "{command:02x?}");
            assert_eq!(board, before);
        }
    }

    #[test]
    fn bytes() {
        assert_eq!(Board::first().write(), [0; 288]);
        let mut bytes: Vec<u8> = (0..288).map(|place| place as u8).collect();
        for coil in bytes.chunks_mut(18) {
            coil[0] %= 2;
            coil[1] %= 17;
        }
        let board = Board::read(&bytes).expect("the bytes of a board");
        assert_eq!(board.write(), bytes);
        assert_eq!(board.coils[1].label, bytes[20..][..2]);
        for (place, byte) in [(0, 2), (270, 255), (1, 17), (271, 255)] {
            let mut other = bytes.clone();
            other[place] = byte;
            assert_eq!(Board::read(&other), None);
        }
        assert_eq!(Board::read(&bytes[1..]), None);
        assert_eq!(Board::read(&[&bytes[..], &[0]].concat()), None);
    }
}
