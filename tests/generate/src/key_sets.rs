//! Distinct keys that a careless search takes for equal ones.

use crate::keys::LAST_PLACE;
use crate::random::Random;
use std::collections::BTreeSet;

/// So many distinct keys of one family, in some order.
pub fn of(random: &mut Random, count: usize) -> Vec<Vec<u8>> {
    let mut keys = match random.below(9) {
        0 => shortest(count),
        1 if count <= 64 => beginnings(random, count),
        2 if count <= 64 => after_zeros(random, count),
        3 | 4 if count <= 256 => one_byte_apart(random, count),
        5 | 6 => mixed(random, count),
        7 if count <= 335 => marked(random, count),
        _ => numbered(random, count),
    };
    arrange(&mut keys, random);
    keys
}

/// The shortest keys there are: the empty one, those of one byte, of two.
pub fn shortest(count: usize) -> Vec<Vec<u8>> {
    let key = |number| match number {
        0 => Vec::new(),
        1..=256 => vec![(number - 1) as u8],
        _ => ((number - 257) as u16).to_be_bytes().to_vec(),
    };
    (0..count).map(key).collect()
}

/// Each key is the beginning of the next.
fn beginnings(random: &mut Random, count: usize) -> Vec<Vec<u8>> {
    let longest = random.bytes(count);
    (0..count)
        .map(|length| longest[..length].to_vec())
        .collect()
}

/// One ending after more and more zeros, which add nothing to a key's number.
fn after_zeros(random: &mut Random, count: usize) -> Vec<Vec<u8>> {
    let length = random.below(4);
    let ending = random.bytes(length);
    let key = |zeros| [vec![0; zeros], ending.clone()].concat();
    (0..count).map(key).collect()
}

/// Keys of one length that differ in one byte: the first, the last, or one
/// between them. There are 256 of them at most.
fn one_byte_apart(random: &mut Random, count: usize) -> Vec<Vec<u8>> {
    let length = match count {
        0..=16 => random.pick(&[1, 2, 3, 8, 24, 100, 256, 300]),
        _ => random.pick(&[1, 2, 3, 8]),
    };
    let common = random.bytes(length);
    let place = match random.below(3) {
        0 => 0,
        1 => length - 1,
        _ => random.below(length),
    };
    let first = random.byte();
    let key = |number: usize| {
        let mut key = common.clone();
        key[place] = first.wrapping_add(number as u8);
        key
    };
    (0..count).map(key).collect()
}

/// Keys of one length that differ in two neighbouring bytes.
pub fn numbered(random: &mut Random, count: usize) -> Vec<Vec<u8>> {
    let length = random.pick(&[2, 2, 3, 4, 5, 9]);
    let common = random.bytes(length);
    let place = random.pick(&[0, length - 2]);
    let key = |number: usize| {
        let mut key = common.clone();
        key[place..place + 2].copy_from_slice(&(number as u16).to_be_bytes());
        key
    };
    (0..count).map(key).collect()
}

/// Keys of several lengths, of few letters.
fn mixed(random: &mut Random, count: usize) -> Vec<Vec<u8>> {
    let longest = match count {
        0..=100 => random.between(4, 12),
        _ => 8,
    };
    let mut keys = BTreeSet::new();
    while keys.len() < count {
        let length = random.between(0, longest);
        keys.insert((0..length).map(|_| random.pick(b"ab\0\xff")).collect());
    }
    keys.into_iter().collect()
}

const PRIME: u32 = 16_777_619;

/// The number of a key, of which the search makes its marks.
fn number(key: &[u8]) -> u32 {
    key.iter().fold(0, |sum: u32, byte| {
        sum.wrapping_mul(PRIME).wrapping_add((*byte).into())
    })
}

/// Keys that share their marks: their numbers are equal modulo a number of
/// marks, or equal.
pub fn marked(random: &mut Random, count: usize) -> Vec<Vec<u8>> {
    match random.below(6) {
        0 => one_number(random, count),
        _ => {
            let marks = random.pick(&[64, 1_536, 65_536]);
            one_mark(random, count, marks)
        }
    }
}

/// The last byte makes the mark that is wanted, where a byte can.
fn one_mark(random: &mut Random, count: usize, marks: u32) -> Vec<Vec<u8>> {
    let wanted = random.below(marks as usize) as u32;
    let length = random.pick(&[3, 4, 6]);
    let mixed = random.percent(50);
    let mut keys = BTreeSet::new();
    while keys.len() < count {
        let more = if mixed { random.below(3) } else { 0 };
        let mut key = random.bytes(length + more);
        let before = number(&key).wrapping_mul(PRIME) % marks;
        let last = (wanted + marks - before) % marks;
        if let Ok(last) = u8::try_from(last) {
            key.push(last);
            keys.insert(key);
        }
    }
    keys.into_iter().collect()
}

/// Two and two keys of four bytes have one number: what the second has more,
/// 28, 79, 100 and -7, adds a multiple of 2^32.
fn one_number(random: &mut Random, count: usize) -> Vec<Vec<u8>> {
    let mut keys = BTreeSet::new();
    while keys.len() < count {
        let key = [
            random.below(228) as u8,
            random.below(177) as u8,
            random.below(156) as u8,
            random.between(7, 255) as u8,
        ];
        let other = [key[0] + 28, key[1] + 79, key[2] + 100, key[3] - 7];
        keys.extend([key.to_vec(), other.to_vec()]);
    }
    keys.into_iter().take(count).collect()
}

/// One or two keys longer than 65,535 bytes: the second as long as the first
/// and another in one byte, or the beginning of the first, all of it where it
/// could not be long otherwise.
pub fn long(random: &mut Random) -> Vec<Vec<u8>> {
    let length = LAST_PLACE + random.pick(&[1, 1, 2, 3, 4, 30, 500]);
    let first = random.bytes(8).repeat(length / 8 + 1)[..length].to_vec();
    let mut second = first.clone();
    match random.below(6) {
        0 => second[0] ^= 1,
        1 => second[length - 1] ^= 1,
        2 => second[LAST_PLACE] ^= 1,
        3 | 4 => second.truncate((length - 1).max(LAST_PLACE + 1)),
        _ => return vec![first],
    }
    vec![first, second]
}

/// Puts the keys in an order: by length and then by content, rising, falling
/// or from both ends; or in none.
pub fn arrange(keys: &mut Vec<Vec<u8>>, random: &mut Random) {
    keys.sort_by(|one, other| (one.len(), one).cmp(&(other.len(), other)));
    match random.below(5) {
        0 => {}
        1 => keys.reverse(),
        2 => *keys = from_both_ends(keys),
        _ => random.shuffle(keys),
    }
}

/// The first, the last, the second, the last but one, and so on.
fn from_both_ends(keys: &[Vec<u8>]) -> Vec<Vec<u8>> {
    let place = |number: usize| match number % 2 {
        0 => number / 2,
        _ => keys.len() - 1 - number / 2,
    };
    (0..keys.len())
        .map(|number| keys[place(number)].clone())
        .collect()
}
