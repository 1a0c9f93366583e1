//! What is done to a good draft of a command before it is written.

use crate::commands::Draft;
use crate::item::{self, bytes, put_head, write, Item, ARRAY, BYTES, MAP, SET_TAG, TAG};
use crate::random::Random;

/// Changes that leave the command good.
pub fn twist(draft: &mut Draft, random: &mut Random) {
    match random.below(8) {
        0 => draft.rename(random.pick(&[1, 2, 63, 64]), random),
        1 => draft.add_argument(random, |random| deeper_double(random)),
        2 => draft.add_argument(random, |random| {
            let levels = random.pick(&[5, 6]);
            item::nested(random, levels)
        }),
        3 => draft.add_argument(random, |random| double_members(random)),
        4 => draft.add_argument(random, |random| {
            let length = random.between(0, 300);
            Item::Bytes(random.bytes(length))
        }),
        5 => {
            let levels = random.pick(&[6, 7]);
            let inner = item::nested(random, levels - 1);
            draft.redirect = Some(Item::Map(vec![(item::plain(random), inner)]));
        }
        6 => draft.redirect = Some(deeper_double(random)),
        _ => {}
    }
}

/// A map with a key that occurs twice.
fn deeper_double(random: &mut Random) -> Item {
    let key = item::plain(random);
    let mut entries: Vec<(Item, Item)> = (0..random.below(3))
        .map(|_| (item::plain(random), item::value(random, 2)))
        .collect();
    entries.push((key.clone(), item::value(random, 2)));
    entries.push((key, item::value(random, 2)));
    random.shuffle(&mut entries);
    Item::Map(entries)
}

fn double_members(random: &mut Random) -> Item {
    let member = item::plain(random);
    Item::Set(vec![member.clone(), item::plain(random), member])
}

/// A reason for 25.
pub fn shape(draft: &mut Draft, random: &mut Random) {
    match random.below(9) {
        0 => draft.rename(random.pick(&[0, 65, 66, 255, 300]), random),
        1 => draft.name = Some(other_than_bytes(random)),
        2 | 3 => draft.name = None,
        4 => {
            draft.args = None;
            draft.more.push((bytes(b"args"), other_than_map(random)));
        }
        5 => {
            let key = other_plain(random);
            let value = item::value(random, 2);
            draft.entries().push((key, value));
        }
        6 => draft.redirect = Some(other_than_map(random)),
        7 => draft
            .more
            .push((other_outer_key(random), item::value(random, 2))),
        _ => {
            // Several of a key, one of which is out of shape.
            let name = random.pick(&[0, 65]);
            let entry = match random.below(3) {
                0 => (bytes(b"name"), Item::Bytes(vec![b'n'; name])),
                1 => (bytes(b"args"), other_than_map(random)),
                _ => (
                    bytes(b"args"),
                    Item::Map(vec![(other_plain(random), bytes(b""))]),
                ),
            };
            draft.more.push(entry);
        }
    }
}

/// A key or member that is no byte string.
pub fn other_plain(random: &mut Random) -> Item {
    match random.below(2) {
        0 => item::integer(random),
        _ => Item::Simple(random.pick(&[0xf4, 0xf5, 0xf6])),
    }
}

fn other_than_bytes(random: &mut Random) -> Item {
    match random.below(2) {
        0 => other_plain(random),
        _ => {
            let levels = random.between(1, 3);
            item::nested(random, levels)
        }
    }
}

fn other_than_map(random: &mut Random) -> Item {
    match random.below(4) {
        0 => item::plain(random),
        1 => Item::Array(vec![]),
        2 => Item::Array(vec![bytes(b"a"), item::plain(random)]),
        _ => Item::Set(vec![bytes(b"a"), item::plain(random)]),
    }
}

fn other_outer_key(random: &mut Random) -> Item {
    const NEAR: [&[u8]; 10] = [
        b"",
        b"nam",
        b"names",
        b"Name",
        b"arg",
        b"argsx",
        b"redirec",
        b"redirects",
        b"name\0",
        b"brgs",
    ];
    match random.below(3) {
        0 => other_plain(random),
        _ => bytes(random.pick(&NEAR)),
    }
}

/// A reason for 26.
pub fn double(draft: &mut Draft, random: &mut Random) {
    match random.below(6) {
        0 => draft.more.push((bytes(b"name"), bytes(b"again"))),
        1 => {
            draft.entries();
            draft.more.push((bytes(b"args"), Item::Map(vec![])));
        }
        2 => {
            draft.redirect = Some(Item::Map(vec![]));
            draft.more.push((bytes(b"redirect"), deeper_double(random)));
        }
        _ => {
            if draft.entries().is_empty() {
                draft.add_argument(random, |random| item::value(random, 2));
            }
            let entries = draft.entries();
            let key = entries[random.below(entries.len())].0.clone();
            for _ in 0..random.pick(&[1, 1, 1, 2]) {
                let value = item::value(random, 2);
                entries.push((key.clone(), value));
            }
        }
    }
}

/// A reason for 24: bytes that are no item of the subset, in some place of
/// the tree where an item belongs.
pub fn form(draft: &mut Draft, random: &mut Random) {
    let raw = Item::Raw(no_item(random));
    put_somewhere(draft, random, raw);
}

/// Any first byte of a head, with a body that often fits it.
pub fn any_head(draft: &mut Draft, random: &mut Random) {
    let raw = Item::Raw(head_and_body(random));
    put_somewhere(draft, random, raw);
}

fn put_somewhere(draft: &mut Draft, random: &mut Random, raw: Item) {
    let value = match random.below(6) {
        0 => Item::Array(vec![item::plain(random), raw]),
        1 => Item::Set(vec![item::plain(random), raw]),
        2 => Item::Map(vec![(raw, item::plain(random))]),
        3 => Item::Map(vec![(item::plain(random), raw)]),
        _ => raw,
    };
    match random.below(12) {
        0 => draft.entries().push((value, item::plain(random))),
        1 => draft.name = Some(value),
        2 => draft.redirect = Some(value),
        3 => draft.redirect = Some(Item::Map(vec![(item::plain(random), value)])),
        4 => draft.more.push((value, item::plain(random))),
        _ => draft.add_argument(random, |_| value),
    }
}

/// Bytes that are no item of the subset as the value of an argument.
pub fn no_item(random: &mut Random) -> Vec<u8> {
    match random.below(12) {
        0 => reserved(random),
        1 => indefinite(random),
        2 => random
            .pick::<&[u8]>(&[b"\x60", b"\x61a", b"\x78\x01a", b"\x64name", b"\x79\0\x01a"])
            .to_vec(),
        3 => float(random),
        4 => other_tag(random),
        5 => tag_before_no_array(random),
        6 => other_simple(random),
        7 => container_as_key_or_member(random),
        8 | 9 => huge_count(random),
        10 => {
            let levels = random.pick(&[7, 8, 9]);
            let item = item::nested(random, levels);
            write(&item, random, 10)
        }
        _ => very_deep(random),
    }
}

fn reserved(random: &mut Random) -> Vec<u8> {
    let first = (random.below(8) << 5 | random.between(28, 31)) as u8;
    let mut raw = vec![first];
    for _ in 0..random.below(10) {
        raw.push(random.pick(&[0x00, 0x01, 0xff, 0x61]));
    }
    raw
}

fn indefinite(random: &mut Random) -> Vec<u8> {
    const ENDED: [&[u8]; 8] = [
        b"\x5f\x41a\xff",
        b"\x5f\xff",
        b"\x7f\x61a\xff",
        b"\x9f\xff",
        b"\x9f\x01\xff",
        b"\xbf\xff",
        b"\xbf\x41a\x01\xff",
        b"\xd9\x01\x02\x9f\x01\xff",
    ];
    random.pick(&ENDED).to_vec()
}

fn float(random: &mut Random) -> Vec<u8> {
    let mut raw = Vec::new();
    let argument = random.next();
    put_head(&mut raw, 7, random.pick(&[25, 26, 27]), argument);
    raw
}

/// A tag other than 258 before an array.
fn other_tag(random: &mut Random) -> Vec<u8> {
    let mut raw = Vec::new();
    match random.below(3) {
        0 => put_head(&mut raw, TAG, random.below(24) as u8, 0),
        // In one byte, 258 is cut to 2.
        1 => put_head(&mut raw, TAG, 24, SET_TAG),
        _ => {
            let tag = random.pick(&[0, 2, 257, 259, 0x1_0102, 0x1_0000_0102, 258 << 8, u64::MAX]);
            let info = if tag > 0xffff_ffff {
                27
            } else if tag > 0xffff {
                26
            } else {
                25
            };
            put_head(&mut raw, TAG, info, tag);
        }
    }
    raw.extend(random.pick::<&[u8]>(&[b"\x80", b"\x81\x01", b"\x00", b"\x41a"]));
    raw
}

fn set_tag(random: &mut Random) -> Vec<u8> {
    let mut raw = Vec::new();
    put_head(&mut raw, TAG, random.pick(&[25, 26, 27]), SET_TAG);
    raw
}

fn tag_before_no_array(random: &mut Random) -> Vec<u8> {
    let mut raw = set_tag(random);
    match random.below(3) {
        0 => {
            raw.extend(set_tag(random));
            raw.extend([0x81, 0x01]);
        }
        1 => raw.extend(write(&item::plain(random), random, 10)),
        _ => raw.extend(random.pick::<&[u8]>(&[b"\xa0", b"\xa1\x01\x02", b"\x60", b"\xc2\x80"])),
    }
    raw
}

fn other_simple(random: &mut Random) -> Vec<u8> {
    match random.below(3) {
        0 => vec![random.between(0xe0, 0xf3) as u8],
        1 => vec![0xf7],
        _ => vec![0xf8, random.pick(&[20, 21, 22, 23, 0, 32, 255])],
    }
}

fn container_as_key_or_member(random: &mut Random) -> Vec<u8> {
    let levels = random.between(1, 2);
    let inner = item::nested(random, levels);
    let outer = match random.below(3) {
        0 => Item::Set(vec![item::plain(random), inner]),
        1 => Item::Set(vec![inner]),
        _ => Item::Map(vec![(inner, item::plain(random))]),
    };
    write(&outer, random, 10)
}

/// A count or length far beyond what is there.
fn huge_count(random: &mut Random) -> Vec<u8> {
    const COUNTS: [u64; 12] = [
        200,
        0xffff,
        0x7fff_ffff,
        0x8000_0000,
        0xffff_ffff,
        0x1_0000_0000,
        (1 << 63) - 1,
        1 << 63,
        u64::MAX - 16,
        u64::MAX - 8,
        u64::MAX - 1,
        u64::MAX,
    ];
    let mut raw = Vec::new();
    let major = match random.below(4) {
        0 => BYTES,
        1 => ARRAY,
        2 => MAP,
        _ => {
            raw = set_tag(random);
            ARRAY
        }
    };
    put_head(&mut raw, major, 27, random.pick(&COUNTS));
    for _ in 0..random.below(4) {
        raw.extend(write(&item::plain(random), random, 10));
    }
    raw
}

fn very_deep(random: &mut Random) -> Vec<u8> {
    let opening =
        random.pick::<&[u8]>(&[b"\x81", b"\xa1\x01", b"\xd9\x01\x02", b"\xd9\x01\x02\x81"]);
    let count = if random.percent(2) {
        5_000
    } else {
        random.between(7, 60)
    };
    let mut raw = opening.repeat(count);
    raw.push(0x00);
    raw
}

fn head_and_body(random: &mut Random) -> Vec<u8> {
    let major = random.below(8) as u8;
    let info = random.below(32) as u8;
    let argument = match info {
        0..=23 => u64::from(info),
        _ if major == TAG => SET_TAG,
        _ => random.below(4) as u64,
    };
    let mut raw = Vec::new();
    put_head(&mut raw, major, info, argument);
    let mut count = argument as usize;
    if random.percent(5) {
        count = (count + random.below(3)).saturating_sub(1);
    }
    match major {
        2 | 3 => raw.extend(random.bytes(count)),
        4 => raw.extend(vec![0xf4; count]),
        5 => raw.extend([0x41, b'k', 0x05].repeat(count)),
        6 => raw.extend([0x82, 0x01, 0x20]),
        _ => {}
    }
    raw
}
