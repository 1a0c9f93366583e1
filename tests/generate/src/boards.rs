//! Commands for a board: sets, labels and offs, written in every way, and ones
//! with one or several reasons to be refused.

use crate::cuts::hex;
use crate::faults;
use crate::item::{self, bytes, put_head, write, Item, BYTES, NEGATIVE, UNSIGNED};
use crate::random::Random;

/// One step of a board: it is made the first one, or not, and a command follows.
pub struct BoardStep {
    pub anew: bool,
    pub command: Vec<u8>,
}

impl BoardStep {
    /// The lines of the step; the last one asks for the coils.
    pub fn lines(&self) -> Vec<String> {
        let fresh = self.anew.then(|| "board fresh".to_string());
        let rest = [format!("board {}", hex(&self.command)), "board".to_string()];
        fresh.into_iter().chain(rest).collect()
    }
}

/// The step of this seed and index.
pub fn board_step(seed: u64, index: u64) -> BoardStep {
    let start = Random::new(seed ^ 0xb0a2).next() ^ Random::new(!index).next();
    let random = &mut Random::new(start);
    BoardStep {
        anew: random.percent(3),
        command: board_command(random),
    }
}

/// A command for a board.
fn board_command(random: &mut Random) -> Vec<u8> {
    match random.percent(17) {
        true => Draft::good(random).refused_by_check(random),
        false => checked_command(random),
    }
}

/// A command for a board that passes the check.
fn checked_command(random: &mut Random) -> Vec<u8> {
    let mut draft = Draft::good(random);
    match random.below(83) {
        0..=35 => {}
        36..=45 => draft.outside(random),
        46..=51 => draft.lengthen(random),
        52..=60 => draft.unfit(random),
        61..=63 => draft.rename(random),
        _ => draft.several(random),
    }
    draft.written(random)
}

/// A capture of the line with commands for a board, some of them in two frames, some
/// with data, which now and then does not come to its end.
pub fn board_capture(seed: u64, index: u64) -> Vec<u8> {
    let start = Random::new(seed ^ 0xb0ac).next() ^ Random::new(!index).next();
    let random = &mut Random::new(start);
    let mut bytes = Vec::new();
    let mut frame = |id: u16, stream_flags: u8, last: u8, payload: &[u8]| {
        bytes.extend(&(payload.len() as u32).to_le_bytes()[..3]);
        bytes.extend(id.to_le_bytes());
        bytes.extend([1, stream_flags, last]);
        bytes.extend(payload);
    };
    for number in 0..random.between(1, 12) {
        let (id, begin) = (2 * number as u16 + 1, u8::from(number == 0));
        let command = checked_command(random);
        let data = if random.percent(20) { 0x08 } else { 0 };
        if random.percent(30) {
            let (first, rest) = command.split_at(random.below(command.len() + 1));
            frame(id, begin, 0x15 | data, first);
            frame(id, 0, 0x12 | data, rest);
        } else {
            frame(id, begin, 0x11 | data, &command);
        }
        let pieces = if data != 0 { random.below(3) } else { 0 };
        (0..pieces).for_each(|_| frame(id, 0, 0x21, b"more"));
        if data != 0 && random.percent(75) {
            frame(id, 0, 0x22, b"data");
        }
    }
    bytes
}

/// Whether a key has this content.
fn is(held: &Item, key: &[u8]) -> bool {
    matches!(held, Item::Bytes(content) if content == key)
}

/// A command before it is written.
struct Draft {
    name: Item,
    /// None if `args` is missing.
    args: Option<Vec<(Item, Item)>>,
    more: Vec<(Item, Item)>,
}

impl Draft {
    fn good(random: &mut Random) -> Draft {
        let on = Item::Simple(random.pick(&[0xf4, 0xf5, 0xf5]));
        let coil = (bytes(b"coil"), coil(random));
        let (name, args): (&[u8], _) = match random.below(20) {
            0..=8 => (b"set", Some(vec![coil, (bytes(b"on"), on)])),
            9..=17 => (b"label", Some(vec![coil, (bytes(b"text"), text(random))])),
            18 => (b"off", Some(vec![])),
            _ => (b"off", None),
        };
        let mut draft = Draft {
            name: bytes(name),
            args,
            more: Vec::new(),
        };
        if random.percent(10) {
            let moved = vec![(item::plain(random), item::value(random, 3))];
            draft.more.push((bytes(b"redirect"), Item::Map(moved)));
        }
        draft
    }

    fn entries(&mut self) -> &mut Vec<(Item, Item)> {
        self.args.get_or_insert_default()
    }

    /// Another value of an argument, which is put in if it is not there.
    fn put(&mut self, key: &[u8], value: Item) {
        let entries = self.entries();
        match entries.iter_mut().find(|(held, _)| is(held, key)) {
            Some(entry) => entry.1 = value,
            None => entries.push((bytes(key), value)),
        }
    }

    fn has(&self, key: &[u8]) -> bool {
        let mut entries = self.args.iter().flatten();
        entries.any(|(held, _)| is(held, key))
    }

    fn remove(&mut self, key: &[u8]) {
        self.entries().retain(|(held, _)| !is(held, key));
    }

    /// A reason for 42.
    fn outside(&mut self, random: &mut Random) {
        self.put(b"coil", other_coil(random));
    }

    /// A reason for 43.
    fn lengthen(&mut self, random: &mut Random) {
        self.name = bytes(b"label");
        self.remove(b"on");
        let length = match random.below(4) {
            0 | 1 => 17,
            2 => random.pick(&[18, 32, 255, 256]),
            _ => random.between(17, 300),
        };
        let text = Item::Bytes(random.bytes(length));
        self.put(b"text", text);
        if self.entries().len() == 1 {
            self.put(b"coil", coil(random));
        }
    }

    /// A reason for 41.
    fn unfit(&mut self, random: &mut Random) {
        if random.percent(15) {
            let name: &[u8] = random.pick(&[b"set", b"label"]);
            self.name = bytes(name);
        }
        let value = other_value(random);
        match random.below(9) {
            0 => self.remove(b"coil"),
            1 => self.remove(random.pick(&[b"on", b"text"])),
            2 => self.put(b"coil", value),
            3 => self.put(random.pick(&[b"on", b"text"]), value),
            4 => self.put(b"on", Item::Simple(0xf6)),
            5 => self.args = None,
            6 => {
                let (on, text) = (Item::Simple(0xf5), text(random));
                self.put(b"on", on);
                self.put(b"text", text);
            }
            7 => {
                self.name = bytes(b"off");
                self.put(random.pick(&[b"coil", b"x"]), coil(random));
            }
            _ => {
                let key = other_key(random);
                self.entries().push((bytes(&key), value));
            }
        }
    }

    /// A reason for 40.
    fn rename(&mut self, random: &mut Random) {
        let name: &[u8] = random.pick(&[
            b"Set", b"sets", b"se", b"OFF", b"of", b"labels", b"labe", b"label\0", b"toggle", b"\0",
        ]);
        self.name = bytes(name);
    }

    /// Two reasons or three, of which the first is told.
    fn several(&mut self, random: &mut Random) {
        match random.below(4) {
            0 | 1 => {
                self.outside(random);
                let other: &[u8] = if self.has(b"on") { b"on" } else { b"text" };
                self.unfit_in(other, random);
            }
            2 => {
                self.lengthen(random);
                self.unfit_in(b"coil", random);
            }
            _ => {
                self.lengthen(random);
                self.outside(random);
            }
        }
        if random.percent(35) {
            self.rename(random);
        }
    }

    /// A reason for 41 in one of the two arguments, or beside them.
    fn unfit_in(&mut self, key: &[u8], random: &mut Random) {
        match random.below(4) {
            0 => self.remove(key),
            1 => self.put(key, other_type(key, random)),
            2 if key == b"on" => self.put(key, Item::Simple(0xf6)),
            _ => {
                let value = other_value(random);
                self.entries().push((bytes(&other_key(random)), value));
            }
        }
    }

    /// A reason for 24, 25 or 26, mostly with reasons for others behind it.
    fn refused_by_check(mut self, random: &mut Random) -> Vec<u8> {
        match random.below(5) {
            0 => {}
            1 => self.rename(random),
            2 => self.unfit(random),
            3 => self.outside(random),
            _ => self.lengthen(random),
        }
        match random.below(3) {
            0 => {
                let mut command = self.written(random);
                match random.below(3) {
                    0 => command.push(random.byte()),
                    1 => drop(command.pop()),
                    _ => command = [command, faults::no_item(random)].concat(),
                }
                return command;
            }
            1 => self.spoil(random),
            _ => self.double(random),
        }
        self.written(random)
    }

    /// A reason for 25.
    fn spoil(&mut self, random: &mut Random) {
        let value = item::plain(random);
        match random.below(3) {
            0 => self.more.push((bytes(b"redirect"), value)),
            1 => self.more.push((bytes(b"stream"), value)),
            _ => self.entries().push((faults::other_plain(random), value)),
        }
    }

    /// A reason for 26.
    fn double(&mut self, random: &mut Random) {
        if random.percent(20) {
            let name = self.name.clone();
            self.more.push((bytes(b"name"), name));
            return;
        }
        if self.entries().is_empty() {
            self.put(b"coil", coil(random));
        }
        let place = random.below(self.entries().len());
        let mut entry = self.entries()[place].clone();
        if random.percent(50) {
            entry.1 = coil(random);
        }
        self.entries().push(entry);
    }

    /// The bytes, with the entries in any order and heads of any width.
    fn written(self, random: &mut Random) -> Vec<u8> {
        let mut entries = self.more;
        entries.push((bytes(b"name"), self.name));
        if let Some(mut args) = self.args {
            random.shuffle(&mut args);
            entries.push((bytes(b"args"), Item::Map(args)));
        }
        random.shuffle(&mut entries);
        let wide = random.pick(&[0, 0, 10, 60]);
        write(&Item::Map(entries), random, wide)
    }
}

/// An integer in a head of any width that holds it.
fn wide_integer(major: u8, number: u64, random: &mut Random) -> Item {
    let least = match number {
        0..=23 => 23,
        24..=0xff => 24,
        0x100..=0xffff => 25,
        0x1_0000..=0xffff_ffff => 26,
        _ => 27,
    };
    let info = match random.between(least, 27) {
        23 => number as u8,
        info => info as u8,
    };
    let mut raw = Vec::new();
    put_head(&mut raw, major, info, number);
    Item::Raw(raw)
}

fn coil(random: &mut Random) -> Item {
    let few = random.pick(&[0, 3, 15]);
    let any = random.below(16);
    let coil = random.pick(&[few, few, any]);
    wide_integer(UNSIGNED, coil as u64, random)
}

/// An integer that is no coil. Some would be one in fewer bits, or with another
/// sign.
fn other_coil(random: &mut Random) -> Item {
    let any = random.next() | 16;
    let number = random.pick(&[
        16,
        16,
        16,
        17,
        99,
        256,
        259,
        65_536,
        1 << 32,
        1 << 63,
        (1 << 63) + 3,
        u64::MAX,
        any,
    ]);
    match random.below(3) {
        0 => {
            let below = random.pick(&[0, 0, 3, 15, (1 << 63) - 1, 1 << 63, u64::MAX, u64::MAX]);
            wide_integer(NEGATIVE, below, random)
        }
        _ => wide_integer(UNSIGNED, number, random),
    }
}

/// A label's text, in a head of any width.
fn text(random: &mut Random) -> Item {
    let length = match random.below(4) {
        0 => random.pick(&[0, 16]),
        1 => random.between(9, 16),
        _ => random.between(0, 16),
    };
    let info = match random.between(23, 27) {
        23 => length as u8,
        info => info as u8,
    };
    let mut raw = Vec::new();
    put_head(&mut raw, BYTES, info, length as u64);
    raw.extend(random.bytes(length));
    Item::Raw(raw)
}

/// A value of a type that this argument does not take.
fn other_type(key: &[u8], random: &mut Random) -> Item {
    let (null, on) = (Item::Simple(0xf6), Item::Simple(0xf5));
    match (key, random.below(3)) {
        (_, 0) => null,
        (b"on", 1) => Item::Array(vec![on]),
        (b"on", _) => coil(random),
        (b"coil", 1) => text(random),
        (b"text", 1) => coil(random),
        _ => on,
    }
}

/// A value of a type that some argument does not take.
fn other_value(random: &mut Random) -> Item {
    match random.below(5) {
        0 => Item::Simple(random.pick(&[0xf4, 0xf5, 0xf6])),
        1 => coil(random),
        2 => text(random),
        _ => item::value(random, 3),
    }
}

/// A key that no command takes.
fn other_key(random: &mut Random) -> Vec<u8> {
    let known: [&[u8]; 6] = [b"Coil", b"coi", b"coil\0", b"ON", b"", b"name"];
    let length = random.between(1, 40);
    match random.below(3) {
        0 => vec![b'k'; length],
        _ => random.pick(&known).to_vec(),
    }
}
