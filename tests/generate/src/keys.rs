//! Commands made for the search for double keys (E4): from one key to
//! thousands, keys that are nearly equal, doubles at every distance, and keys
//! far from the command's start.

use crate::item::{self, bytes, write, Item, Writer, BYTES, MAP};
use crate::key_sets;
use crate::random::Random;
use crate::Case;

/// The last place that 16 bits hold.
pub const LAST_PLACE: usize = 0xffff;

/// A key of `args`, and what stands under it.
struct Entry {
    key: Vec<u8>,
    /// How likely, in a hundred, the key's head is wider than it need be.
    wide: usize,
    value: Item,
}

/// What `args` is to be.
struct Plan {
    entries: Vec<Entry>,
    /// As in an entry, for the heads of the rest.
    wide: usize,
    /// An integer stands as a key before the entry in this place.
    integer: Option<usize>,
}

/// The command of this seed and index, and a key to look up in it. What kind of
/// command it is depends on the index alone: the rare kinds come first.
pub fn key_command(seed: u64, index: u64) -> Case {
    let start = Random::new(seed ^ 0xe4).next() ^ Random::new(!index).next();
    let random = &mut Random::new(start);
    let plan = match index % 1000 {
        0..=3 => far(random),
        4..=6 => long_keys(random),
        7..=9 => wide_block(random),
        10 => large(random, 1_800, 3_000),
        11 => large(random, 1_027, 1_800),
        12..=15 => large(random, 1_022, 1_026),
        16 => large(random, 572, 1_021),
        17..=35 => shortest(random),
        36..=43 => ordinary(random, 301, 499),
        44..=57 => ordinary(random, 400, 401),
        58..=105 => ordinary(random, 15, 18),
        106..=255 => ordinary(random, 17, 300),
        256..=285 => marked(random),
        _ => ordinary(random, 1, 16),
    };
    finish(plan, random)
}

// ---- the kinds

fn ordinary(random: &mut Random, low: usize, high: usize) -> Plan {
    let count = random.between(low, high);
    let keys = key_sets::of(random, count);
    let mut plan = planned(keys, random.pick(&[0, 0, 20, 60]), random);
    put_doubles(&mut plan.entries, random);
    plan
}

fn large(random: &mut Random, low: usize, high: usize) -> Plan {
    let count = random.between(low, high);
    let keys = key_sets::of(random, count);
    let wide = random.pick(&[0, 0, 20]);
    bare(keys, wide, random)
}

/// As many keys as 2,048 bytes hold, or some less.
fn shortest(random: &mut Random) -> Plan {
    let fewest = random.pick(&[500, 556]);
    let count = random.between(fewest, 571);
    let mut keys = key_sets::shortest(count);
    key_sets::arrange(&mut keys, random);
    bare(keys, 0, random)
}

/// Values of one byte, so that there are keys to search and little else.
fn bare(keys: Vec<Vec<u8>>, wide: usize, random: &mut Random) -> Plan {
    let mut plan = planned(keys, wide, random);
    for entry in &mut plan.entries {
        entry.value = one_byte(random);
    }
    put_doubles(&mut plan.entries, random);
    plan
}

/// Keys that share their marks.
fn marked(random: &mut Random) -> Plan {
    let count = match random.percent(70) {
        true => random.between(2, 40),
        false => random.between(100, 335),
    };
    let mut keys = key_sets::marked(random, count);
    key_sets::arrange(&mut keys, random);
    let mut plan = planned(keys, random.pick(&[0, 0, 40]), random);
    put_doubles(&mut plan.entries, random);
    plan
}

/// Keys on both sides of byte 65,535, or all but one behind it.
fn far(random: &mut Random) -> Plan {
    let (mut plan, length) = match random.below(10) {
        0..=5 => (dense(random), random.between(65_380, 65_480)),
        6..=7 => (ordinary(random, 2, 40), random.between(65_400, 70_000)),
        _ => return several_long_values(random),
    };
    let place = random.below(plan.entries.len());
    let key = plan.entries[place].key.clone();
    let content = match key.is_empty() || random.percent(50) {
        true => vec![7; length],
        // The place of a key, cut to 16 bits, is then that of its bytes or of others.
        false => key.into_iter().cycle().take(length).collect(),
    };
    plan.entries[0].value = Item::Bytes(content);
    plan
}

/// Three values, between which there are keys or not, take most of the command.
fn several_long_values(random: &mut Random) -> Plan {
    let mut plan = dense(random);
    for _ in 0..3 {
        let place = random.below(plan.entries.len());
        let length = random.between(20_000, 45_000);
        plan.entries[place].value = Item::Bytes(vec![7; length]);
    }
    plan
}

/// Short keys and values, so that in most commands a key begins or ends at a
/// given byte.
fn dense(random: &mut Random) -> Plan {
    let count = random.between(60, 80);
    let mut keys = key_sets::shortest(count);
    key_sets::arrange(&mut keys, random);
    bare(keys, 0, random)
}

/// One key or two longer than 65,535 bytes, among short ones.
fn long_keys(random: &mut Random) -> Plan {
    let mut keys = key_sets::long(random);
    let short = random.between(0, 20);
    keys.extend(key_sets::of(random, short));
    // The beginning of a long key whose length is cut to 16 bits.
    let cut = keys[0].len() & LAST_PLACE;
    let beginning = keys[0][..cut.min(40)].to_vec();
    keys.push(beginning);
    keys.sort_unstable();
    keys.dedup();
    random.shuffle(&mut keys);
    let mut plan = planned(keys, 20, random);
    double_long(&mut plan.entries, random);
    plan
}

/// At times a long key twice in place of two long keys, at times a short one.
fn double_long(entries: &mut [Entry], random: &mut Random) {
    let is_long = |entry: &&mut Entry| entry.key.len() > LAST_PLACE;
    if random.percent(20) {
        let mut long = entries.iter_mut().filter(is_long);
        if let (Some(one), Some(other)) = (long.next(), long.next()) {
            other.key.clone_from(&one.key);
        }
        return;
    }
    let mut short: Vec<&mut Entry> = entries.iter_mut().filter(|entry| !is_long(entry)).collect();
    if short.len() > 1 && random.percent(25) {
        let last = short.len() - 1;
        let key = short[0].key.clone();
        short[last].key = key;
    }
}

/// About 1,024 keys whose places lie more than 65,535 bytes apart: each value is
/// long, or one is very long.
fn wide_block(random: &mut Random) -> Plan {
    if random.percent(80) {
        return one_long_value(random);
    }
    let count = random.between(1_000, 1_100);
    let length = random.between(62, 100);
    let keys = key_sets::numbered(random, count);
    let mut plan = bare(keys, 0, random);
    for entry in &mut plan.entries {
        entry.value = Item::Bytes(vec![7; length]);
    }
    plan
}

/// The keys behind the long value are then close together, and some lie about
/// 65,535 bytes behind the start of a block. The search takes one key by itself
/// before each block of 1,024, so that blocks start at the second key and at the
/// 1,027th.
fn one_long_value(random: &mut Random) -> Plan {
    let count = random.between(1_070, 1_110);
    let keys = key_sets::shortest(count);
    let mut plan = bare(keys, 0, random);
    let place = random.pick(&[0, 1, 1, 1_024, 1_026, 1_026]);
    // Behind the second key keys end every three bytes, behind the 1,027th every
    // four: with these lengths one ends 65,535 or 65,536 bytes behind the block's start.
    let length = 12 * random.between(5_450, 5_459) + random.pick(&[2, 3, 6, 11]);
    plan.entries[place].value = Item::Bytes(vec![7; length]);
    plan
}

// ---- the entries

fn planned(keys: Vec<Vec<u8>>, wide: usize, random: &mut Random) -> Plan {
    let values: Vec<Item> = match keys.len() {
        1..=40 => keys.iter().map(|_| value(&keys, random)).collect(),
        _ => keys.iter().map(|_| one_byte_mostly(random)).collect(),
    };
    let entry = |(key, value)| Entry { key, wide, value };
    let entries = keys.into_iter().zip(values).map(entry).collect();
    Plan {
        entries,
        wide,
        integer: None,
    }
}

fn one_byte(random: &mut Random) -> Item {
    match random.below(5) {
        0 => Item::Bytes(Vec::new()),
        1 => Item::Simple(random.pick(&[0xf4, 0xf5, 0xf6])),
        2 => Item::Map(Vec::new()),
        3 => Item::Array(Vec::new()),
        _ => Item::Unsigned(random.below(24) as u64),
    }
}

fn one_byte_mostly(random: &mut Random) -> Item {
    match random.percent(5) {
        true => item::value(random, 2),
        false => one_byte(random),
    }
}

/// Also maps with a key twice, and with a key that stands in `args`: a search
/// that went into them would find a double.
fn value(keys: &[Vec<u8>], random: &mut Random) -> Item {
    let mut key = keys[random.below(keys.len())].clone();
    key.truncate(300);
    match random.below(20) {
        0..=4 => item::integer(random),
        5 => item::value(random, 4),
        6 => Item::Map(vec![(Item::Bytes(key), item::plain(random))]),
        7 => {
            let entry = (Item::Bytes(key), one_byte(random));
            Item::Map(vec![entry.clone(), entry])
        }
        8 => Item::Array(vec![Item::Map(vec![(Item::Bytes(key), one_byte(random))])]),
        _ => one_byte(random),
    }
}

/// No double in half of the commands, one in most others.
fn put_doubles(entries: &mut [Entry], random: &mut Random) {
    let count = match random.below(20) {
        0..=9 => 0,
        10..=18 => 1,
        _ => random.between(2, 4),
    };
    for _ in 0..count {
        put_double(entries, random);
    }
}

/// A key again, so many entries later.
fn put_double(entries: &mut [Entry], random: &mut Random) {
    let Some(farthest @ 1..) = entries.len().checked_sub(1) else {
        return;
    };
    let distance = distance(farthest, random);
    let first = match random.below(4) {
        0 => 0,
        1 => farthest - distance,
        _ => random.below(farthest - distance + 1),
    };
    let key = entries[first].key.clone();
    let other = first + distance;
    entries[other].key = key;
    for place in [first, other] {
        if random.percent(50) {
            entries[place].wide = random.pick(&[0, 100]);
        }
    }
}

fn distance(farthest: usize, random: &mut Random) -> usize {
    const MARKED: [usize; 9] = [1, 15, 16, 17, 511, 512, 1_023, 1_024, 1_025];
    let possible: Vec<usize> = MARKED.into_iter().filter(|far| *far <= farthest).collect();
    match random.below(10) {
        0..=3 => random.pick(&possible),
        // The farther ones are possible in few commands.
        4 | 5 => random.pick(&possible[possible.len().saturating_sub(3)..]),
        6 => farthest,
        7 => random.between(1, farthest),
        8 => random.between(farthest.div_ceil(2), farthest),
        _ => random.between(farthest.min(1_026), farthest),
    }
}

// ---- the command

fn finish(plan: Plan, random: &mut Random) -> Case {
    let key = lookup_key(&plan.entries, random);
    let wide = plan.wide;
    let name = random.between(1, 8);
    let mut outer = vec![
        (bytes(b"name"), Item::Bytes(random.bytes(name))),
        (bytes(b"args"), written(&plan, random)),
    ];
    let fault = random.below(200);
    match fault {
        0..=11 => double_outer(&mut outer, plan, random),
        12..=15 => out_of_shape(&mut outer, plan, random),
        16..=30 => {
            let moved = vec![(item::plain(random), item::value(random, 3))];
            outer.push((bytes(b"redirect"), Item::Map(moved)));
        }
        _ => {}
    }
    if fault % 2 == 0 {
        random.shuffle(&mut outer);
    }
    let mut command = write(&Item::Map(outer), random, wide);
    if (31..=34).contains(&fault) {
        break_bytes(&mut command, random);
    }
    Case { command, key }
}

/// `args` in bytes.
fn written(plan: &Plan, random: &mut Random) -> Item {
    let mut writer = Writer {
        random,
        wide: plan.wide,
        out: Vec::new(),
    };
    let count = plan.entries.len() + usize::from(plan.integer.is_some());
    writer.head(MAP, count as u64);
    for (place, entry) in plan.entries.iter().enumerate() {
        if plan.integer == Some(place) {
            writer.out.extend([1, 2]);
        }
        writer.wide = entry.wide;
        writer.head(BYTES, entry.key.len() as u64);
        writer.out.extend(&entry.key);
        writer.wide = plan.wide;
        writer.item(&entry.value);
    }
    Item::Raw(writer.out)
}

/// A key of the outer map twice, or several times.
fn double_outer(outer: &mut Vec<(Item, Item)>, plan: Plan, random: &mut Random) {
    let redirect = || (bytes(b"redirect"), Item::Map(Vec::new()));
    match random.below(6) {
        0 => outer.push((bytes(b"name"), bytes(b"again"))),
        1 => outer.extend([redirect(), redirect()]),
        2 => outer.extend((0..random.between(7, 12)).map(|_| redirect())),
        3 => {
            let name = outer.remove(0);
            outer.extend((0..random.between(6, 12)).map(|_| redirect()));
            outer.push(name);
        }
        _ => {
            let count = plan.entries.len();
            let keys = key_sets::of(random, count.min(300));
            let mut second = planned(keys, plan.wide, random);
            put_doubles(&mut second.entries, random);
            outer.push((bytes(b"args"), written(&second, random)));
        }
    }
}

/// A reason for 25, beside the doubles that may be there.
fn out_of_shape(outer: &mut Vec<(Item, Item)>, mut plan: Plan, random: &mut Random) {
    let redirect = |value| (bytes(b"redirect"), value);
    match random.below(4) {
        0 => outer.push((bytes(b"nam"), Item::Unsigned(1))),
        1 => {
            outer.remove(0);
        }
        2 => {
            outer.extend((0..random.between(6, 9)).map(|_| redirect(Item::Map(Vec::new()))));
            outer.push(redirect(Item::Array(Vec::new())));
        }
        _ => {
            plan.integer = Some(random.below(plan.entries.len()));
            outer[1].1 = written(&plan, random);
        }
    }
}

/// A reason for 24, beside the doubles that may be there.
fn break_bytes(command: &mut Vec<u8>, random: &mut Random) {
    match random.below(2) {
        0 => command.push(random.byte()),
        _ => {
            command.pop();
        }
    }
}

/// Mostly a key of `args`. Else one that is likely absent, but near.
fn lookup_key(entries: &[Entry], random: &mut Random) -> Vec<u8> {
    let place = match random.below(4) {
        0 => 0,
        1 => entries.len() - 1,
        _ => random.below(entries.len()),
    };
    let mut key = entries[place].key.clone();
    match random.below(10) {
        0 => key.push(0),
        1 => {
            key.pop();
        }
        _ => {}
    }
    key
}
