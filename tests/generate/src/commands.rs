//! Drafts of commands, the mix of faults in them, and damage to their bytes.

use crate::faults;
use crate::item::{self, bytes, write, Item};
use crate::loose::one_loose;
use crate::random::Random;
use crate::Case;

/// What is None is missing in the outer map.
pub struct Draft {
    pub name: Option<Item>,
    pub args: Option<Vec<(Item, Item)>>,
    pub redirect: Option<Item>,
    /// Further entries of the outer map.
    pub more: Vec<(Item, Item)>,
}

impl Draft {
    fn good(random: &mut Random) -> Draft {
        let mut draft = Draft {
            name: Some(bytes(b"set")),
            args: None,
            redirect: None,
            more: Vec::new(),
        };
        let length = random.between(1, 12);
        draft.rename(length, random);
        if !random.percent(15) {
            draft.args = Some(Vec::new());
            for _ in 0..random.pick(&[0, 1, 1, 2, 3, 4, 6, 9]) {
                draft.add_argument(random, argument);
            }
        }
        if random.percent(25) {
            draft.redirect = Some(Item::Map(vec![(
                item::plain(random),
                item::value(random, 3),
            )]));
        }
        draft
    }

    pub fn rename(&mut self, length: usize, random: &mut Random) {
        self.name = Some(Item::Bytes(random.bytes(length)));
    }

    /// The entries of `args`, for a change of them. From then on it is there.
    pub fn entries(&mut self) -> &mut Vec<(Item, Item)> {
        self.args.get_or_insert_default()
    }

    /// Adds an argument under a key that is not there yet.
    pub fn add_argument(&mut self, random: &mut Random, make: impl FnOnce(&mut Random) -> Item) {
        let mut key = argument_key(random);
        while self.has(&key) {
            key.push(random.pick(b"ab\0\xff"));
        }
        let value = make(random);
        self.entries().push((Item::Bytes(key), value));
    }

    fn has(&self, key: &[u8]) -> bool {
        self.args
            .iter()
            .flatten()
            .any(|(held, _)| matches!(held, Item::Bytes(content) if content == key))
    }

    /// The outer map, its entries and those of `args` in any order.
    fn into_item(self, random: &mut Random) -> Item {
        let mut entries = self.more;
        if let Some(name) = self.name {
            entries.push((bytes(b"name"), name));
        }
        if let Some(mut args) = self.args {
            random.shuffle(&mut args);
            entries.push((bytes(b"args"), Item::Map(args)));
        }
        if let Some(redirect) = self.redirect {
            entries.push((bytes(b"redirect"), redirect));
        }
        random.shuffle(&mut entries);
        Item::Map(entries)
    }
}

fn argument(random: &mut Random) -> Item {
    match random.below(10) {
        0..=5 => item::integer(random),
        _ => item::value(random, 4),
    }
}

fn argument_key(random: &mut Random) -> Vec<u8> {
    if random.percent(10) {
        random
            .pick::<&[u8]>(&[b"name", b"args", b"redirect", b"nam", b""])
            .to_vec()
    } else {
        item::key(random)
    }
}

/// The command and key of this seed and index.
pub fn case(seed: u64, index: u64) -> Case {
    let start = Random::new(seed).next() ^ Random::new(!index).next();
    let random = &mut Random::new(start);
    match random.below(2000) {
        0..=19 => large(random),
        20..=79 => no_map(random),
        80..=379 => damaged(random),
        380..=859 => one_loose(random),
        _ => drafted(random),
    }
}

/// The bytes of a command that passes the check.
pub fn good(random: &mut Random) -> Vec<u8> {
    let mut draft = Draft::good(random);
    faults::twist(&mut draft, random);
    finish(draft, random).command
}

/// A command that passes the check and has the shortest heads.
pub fn shortest(random: &mut Random) -> Case {
    let mut draft = Draft::good(random);
    faults::twist(&mut draft, random);
    written(draft, random, 0)
}

/// The bytes of a command with a reason for 24, 25 or 26.
pub fn faulty(random: &mut Random, number: u8) -> Vec<u8> {
    let mut draft = Draft::good(random);
    match number {
        24 => faults::form(&mut draft, random),
        25 => faults::shape(&mut draft, random),
        _ => faults::double(&mut draft, random),
    }
    finish(draft, random).command
}

fn drafted(random: &mut Random) -> Case {
    let mut draft = Draft::good(random);
    edit(&mut draft, random);
    finish(draft, random)
}

/// Puts in no fault, one, or several.
fn edit(draft: &mut Draft, random: &mut Random) {
    faults::twist(draft, random);
    match random.below(100) {
        0..=49 => {}
        50..=63 => faults::shape(draft, random),
        64..=77 => faults::double(draft, random),
        78..=83 => faults::form(draft, random),
        84..=89 => faults::any_head(draft, random),
        90..=94 => {
            faults::double(draft, random);
            faults::shape(draft, random);
        }
        95..=96 => {
            faults::double(draft, random);
            faults::form(draft, random);
        }
        97..=98 => {
            faults::shape(draft, random);
            faults::form(draft, random);
        }
        _ => {
            faults::double(draft, random);
            faults::shape(draft, random);
            faults::form(draft, random);
        }
    }
}

fn finish(draft: Draft, random: &mut Random) -> Case {
    let wide = random.pick(&[0, 10, 50, 100]);
    written(draft, random, wide)
}

/// The case of a draft, with so many heads in a hundred wider than they need be.
fn written(draft: Draft, random: &mut Random, wide: usize) -> Case {
    let key = lookup_key(&draft, random);
    let item = draft.into_item(random);
    Case {
        command: write(&item, random, wide),
        key,
    }
}

/// Mostly a key of `args`. Else one that is likely absent, but near.
fn lookup_key(draft: &Draft, random: &mut Random) -> Vec<u8> {
    let mut keys: Vec<&Vec<u8>> = Vec::new();
    collect_keys(draft.args.iter().flatten(), &mut keys);
    if keys.is_empty() {
        return argument_key(random);
    }
    let mut key = random.pick(&keys).clone();
    match random.below(20) {
        0 => key.push(random.pick(b"a\0")),
        1 => {
            key.pop();
        }
        2 => {
            if let Some(last) = key.last_mut() {
                *last ^= 1;
            }
        }
        3 => key = deeper_key(draft, random),
        4 => {
            key = random
                .pick::<&[u8]>(&[b"name", b"args", b"redirect", b""])
                .to_vec()
        }
        5 => {
            let length = random.pick(&[1, 300, 3000]);
            key = random.bytes(length);
        }
        _ => {}
    }
    key
}

fn collect_keys<'d>(
    entries: impl IntoIterator<Item = &'d (Item, Item)>,
    keys: &mut Vec<&'d Vec<u8>>,
) {
    for (key, _) in entries {
        if let Item::Bytes(content) = key {
            keys.push(content);
        }
    }
}

/// A key of a map inside an argument or of the redirect.
fn deeper_key(draft: &Draft, random: &mut Random) -> Vec<u8> {
    let mut keys = Vec::new();
    let arguments = draft.args.iter().flatten();
    let values = arguments.map(|(_, value)| value).chain(&draft.redirect);
    for value in values {
        if let Item::Map(entries) = value {
            collect_keys(entries, &mut keys);
        }
    }
    if keys.is_empty() {
        b"deeper".to_vec()
    } else {
        random.pick(&keys).clone()
    }
}

/// Hundreds of arguments, at times more than 512, at times with one key
/// twice or with an integer among the keys.
fn large(random: &mut Random) -> Case {
    let mut draft = Draft::good(random);
    let mut args = Vec::new();
    let count = random.between(100, 700) as u16;
    let width = random.pick(&[2, 3, 6]);
    for number in 0..count {
        let mut key = vec![b'k'; width];
        key[width - 2..].copy_from_slice(&number.to_be_bytes());
        args.push((Item::Bytes(key), item::plain(random)));
    }
    match random.below(6) {
        0 => {
            let first = args[0].0.clone();
            args.push((first, Item::Unsigned(1)));
        }
        1 => {
            let place = random.below(args.len());
            let again = args[place].0.clone();
            args.push((again, Item::Unsigned(1)));
        }
        2 => args.push((Item::Unsigned(5), Item::Unsigned(1))),
        _ => {}
    }
    draft.args = Some(args);
    finish(draft, random)
}

/// An outermost item that is no map, or plain noise.
fn no_map(random: &mut Random) -> Case {
    let key = argument_key(random);
    let command = match random.below(4) {
        0 => {
            let length = random.below(12);
            random.bytes(length)
        }
        1 => {
            let levels = random.between(7, 10);
            let item = item::nested(random, levels);
            write(&item, random, 10)
        }
        _ => {
            let item = item::value(random, 4);
            write(&item, random, 30)
        }
    };
    Case { command, key }
}

/// A good or faulty command whose bytes are then changed.
fn damaged(random: &mut Random) -> Case {
    let mut case = drafted(random);
    let command = &mut case.command;
    match random.below(10) {
        0 | 1 => {
            let length = random.below(command.len());
            command.truncate(length);
        }
        2 => {
            command.pop();
        }
        3 => {
            let count = random.between(1, 4);
            command.extend(random.bytes(count));
        }
        4 => command.extend_from_within(..),
        _ => {
            for _ in 0..random.between(1, 3) {
                change_byte(command, random);
            }
        }
    }
    case
}

fn change_byte(command: &mut Vec<u8>, random: &mut Random) {
    if command.is_empty() {
        command.push(random.byte());
        return;
    }
    let place = random.below(command.len());
    match random.below(6) {
        0 => command[place] ^= 1 << random.below(8),
        1 => command[place] = random.byte(),
        2 => command[place] = command[place].wrapping_add(1),
        3 => command[place] = command[place].wrapping_sub(1),
        4 => {
            let byte = random.byte();
            command.insert(place, byte);
        }
        _ => {
            command.remove(place);
        }
    }
}
