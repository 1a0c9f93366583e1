//! Items before they are written, and the writer.

use crate::random::Random;

#[derive(Clone)]
pub enum Item {
    Unsigned(u64),
    Negative(u64),
    Bytes(Vec<u8>),
    /// False, true or null, as its one byte.
    Simple(u8),
    Array(Vec<Item>),
    Set(Vec<Item>),
    Map(Vec<(Item, Item)>),
    /// Written as it stands; may be no item at all.
    Raw(Vec<u8>),
}

pub const UNSIGNED: u8 = 0;
pub const NEGATIVE: u8 = 1;
pub const BYTES: u8 = 2;
pub const ARRAY: u8 = 4;
pub const MAP: u8 = 5;
pub const TAG: u8 = 6;
pub const SIMPLE: u8 = 7;
pub const SET_TAG: u64 = 258;

pub fn bytes(content: &[u8]) -> Item {
    Item::Bytes(content.to_vec())
}

/// Writes a head whose info is `info`, and `argument` in the width that the
/// info asks for: none below 24, then 1, 2, 4 and 8 bytes.
pub fn put_head(out: &mut Vec<u8>, major: u8, info: u8, argument: u64) {
    out.push(major << 5 | info);
    if (24..=27).contains(&info) {
        let width = 1 << (info - 24);
        out.extend(&argument.to_be_bytes()[8 - width..]);
    }
}

/// The info of the shortest head.
pub fn shortest_info(argument: u64) -> u8 {
    match argument {
        0..=23 => argument as u8,
        24..=0xff => 24,
        0x100..=0xffff => 25,
        0x1_0000..=0xffff_ffff => 26,
        _ => 27,
    }
}

pub struct Writer<'r> {
    pub random: &'r mut Random,
    /// How many heads in a hundred are wider than they need be.
    pub wide: usize,
    pub out: Vec<u8>,
}

impl Writer<'_> {
    pub fn head(&mut self, major: u8, argument: u64) {
        let mut info = shortest_info(argument);
        if info < 27 && self.random.percent(self.wide) {
            let low = usize::from(info.max(23)) + 1;
            info = self.random.between(low, 27) as u8;
        }
        put_head(&mut self.out, major, info, argument);
    }

    pub fn item(&mut self, item: &Item) {
        match item {
            Item::Unsigned(n) => self.head(UNSIGNED, *n),
            Item::Negative(n) => self.head(NEGATIVE, *n),
            Item::Bytes(content) => {
                self.head(BYTES, content.len() as u64);
                self.out.extend(content);
            }
            Item::Simple(byte) => self.out.push(*byte),
            Item::Array(items) => self.items(items),
            Item::Set(items) => {
                self.head(TAG, SET_TAG);
                self.items(items);
            }
            Item::Map(entries) => self.entries(entries),
            Item::Raw(content) => self.out.extend(content),
        }
    }

    fn items(&mut self, items: &[Item]) {
        self.head(ARRAY, items.len() as u64);
        for item in items {
            self.item(item);
        }
    }

    fn entries(&mut self, entries: &[(Item, Item)]) {
        self.head(MAP, entries.len() as u64);
        for (key, value) in entries {
            self.item(key);
            self.item(value);
        }
    }
}

pub fn write(item: &Item, random: &mut Random, wide: usize) -> Vec<u8> {
    let mut writer = Writer {
        random,
        wide,
        out: Vec::new(),
    };
    writer.item(item);
    writer.out
}

const EDGES: [u64; 16] = [
    0,
    1,
    23,
    24,
    0xff,
    0x100,
    0xffff,
    0x1_0000,
    0xffff_ffff,
    0x1_0000_0000,
    (1 << 63) - 2,
    (1 << 63) - 1,
    1 << 63,
    (1 << 63) + 1,
    u64::MAX - 1,
    u64::MAX,
];

pub fn integer(random: &mut Random) -> Item {
    let n = match random.below(4) {
        0 => random.next() >> random.below(64),
        1 => random.pick(&EDGES[10..]),
        _ => random.pick(&EDGES),
    };
    if random.percent(50) {
        Item::Unsigned(n)
    } else {
        Item::Negative(n)
    }
}

/// What may be a map key or a set member.
pub fn plain(random: &mut Random) -> Item {
    match random.below(6) {
        0 | 1 => integer(random),
        2 => Item::Simple(random.pick(&[0xf4, 0xf5, 0xf6])),
        _ => Item::Bytes(key(random)),
    }
}

/// A short key. Few letters, so that keys are often prefixes of others or
/// differ in their last byte only.
pub fn key(random: &mut Random) -> Vec<u8> {
    let length = match random.below(20) {
        0 => 0,
        1 => random.between(20, 30),
        2 => random.pick(&[255, 256]),
        _ => random.between(1, 5),
    };
    (0..length).map(|_| random.pick(b"ab\0\xff")).collect()
}

/// Any value of the subset of at most `levels` levels. Double keys and
/// double members are left as they come.
pub fn value(random: &mut Random, levels: usize) -> Item {
    if levels == 0 || random.percent(60) {
        return plain(random);
    }
    let count = random.pick(&[0, 1, 2, 3, 5]);
    let below = levels - 1;
    match random.below(3) {
        0 => Item::Array((0..count).map(|_| value(random, below)).collect()),
        1 => Item::Set((0..count).map(|_| plain(random)).collect()),
        _ => Item::Map(
            (0..count)
                .map(|_| (plain(random), value(random, below)))
                .collect(),
        ),
    }
}

/// A value of exactly `levels` levels, at least 1.
pub fn nested(random: &mut Random, levels: usize) -> Item {
    if levels == 1 {
        return innermost(random);
    }
    let inner = nested(random, levels - 1);
    let before = random.below(3);
    let after = random.below(2);
    if random.percent(50) {
        let mut items: Vec<Item> = (0..before).map(|_| plain(random)).collect();
        items.push(inner);
        items.extend((0..after).map(|_| plain(random)));
        Item::Array(items)
    } else {
        let mut entries: Vec<(Item, Item)> = (0..before)
            .map(|_| (plain(random), plain(random)))
            .collect();
        entries.push((plain(random), inner));
        entries.extend((0..after).map(|_| (plain(random), plain(random))));
        Item::Map(entries)
    }
}

fn innermost(random: &mut Random) -> Item {
    let count = random.below(3);
    match random.below(3) {
        0 => Item::Array((0..count).map(|_| plain(random)).collect()),
        1 => Item::Set((0..count).map(|_| plain(random)).collect()),
        _ => Item::Map((0..count).map(|_| (plain(random), plain(random))).collect()),
    }
}
