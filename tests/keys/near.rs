//! Whether distinct keys are such that a careless search takes them for equal.

use crate::view::{in_order, Key};
use std::cmp::Ordering;
use std::collections::BTreeMap;

/// The contents, sorted, and whether two that then stand side by side are so.
fn neighbours<'a>(keys: &[Key<'a>], are: impl Fn(&[u8], &[u8]) -> bool) -> bool {
    let mut contents: Vec<&[u8]> = keys.iter().map(|key| key.content).collect();
    contents.sort_unstable();
    contents.windows(2).any(|pair| are(pair[0], pair[1]))
}

pub fn one_length(keys: &[Key]) -> bool {
    let mut lengths = keys.iter().map(|key| key.content.len());
    let first = lengths.next();
    lengths.all(|length| Some(length) == first)
}

/// A key that begins others stands just before one of them.
pub fn one_begins_another(keys: &[Key]) -> bool {
    neighbours(keys, |one, other| other.starts_with(one))
}

fn differ_in(one: &[u8], other: &[u8]) -> Option<usize> {
    let mut places = (0..one.len()).filter(|place| one[*place] != other[*place]);
    let place = places.next()?;
    places.next().is_none().then_some(place)
}

/// Whether keys of one length, `least` or more, differ in their last byte alone.
pub fn last_byte_apart(keys: &[Key], least: usize) -> bool {
    neighbours(keys, |one, other| {
        let length = one.len();
        length >= least.max(2) && length == other.len() && differ_in(one, other) == Some(length - 1)
    })
}

/// As above, for the first byte: with their bytes backward it is the last.
pub fn first_byte_apart(keys: &[Key], least: usize) -> bool {
    let long = keys.iter().filter(|key| key.content.len() >= least.max(2));
    let mut backward: Vec<Vec<u8>> = long
        .map(|key| key.content.iter().rev().copied().collect())
        .collect();
    backward.sort_unstable();
    backward.windows(2).any(|pair| {
        let length = pair[0].len();
        length == pair[1].len() && differ_in(&pair[0], &pair[1]) == Some(length - 1)
    })
}

/// Whether two differ in one byte that is neither the first nor the last.
pub fn inner_byte_apart(keys: &[Key]) -> bool {
    neighbours(keys, |one, other| {
        let place = match one.len() == other.len() {
            true => differ_in(one, other),
            false => None,
        };
        place.is_some_and(|place| 0 < place && place + 1 < one.len())
    })
}

pub fn rise(keys: &[Key]) -> bool {
    keys.windows(2)
        .all(|pair| in_order(&pair[0], &pair[1]) != Ordering::Greater)
}

pub fn fall(keys: &[Key]) -> bool {
    keys.windows(2)
        .all(|pair| in_order(&pair[0], &pair[1]) != Ordering::Less)
}

/// Every other key, from the first on, rises; those between them fall.
pub fn from_both_ends(keys: &[Key]) -> bool {
    let each_other =
        |first: usize| -> Vec<Key> { keys.iter().skip(first).step_by(2).copied().collect() };
    rise(&each_other(0)) && fall(&each_other(1)) && !rise(keys) && !fall(keys)
}

/// The number of a key, of which the search makes its marks.
pub fn number(key: &Key) -> u64 {
    let bytes = key.content.iter();
    bytes.fold(0, |sum, byte| {
        (sum * 16_777_619 + u64::from(*byte)) % (1 << 32)
    })
}

/// The keys by their numbers modulo `marks`.
fn by_mark<'k, 'a>(keys: &'k [Key<'a>], marks: u64) -> BTreeMap<u64, Vec<&'k Key<'a>>> {
    let mut groups: BTreeMap<u64, Vec<&Key>> = BTreeMap::new();
    for key in keys {
        groups.entry(number(key) % marks).or_default().push(key);
    }
    groups
}

/// Whether each key has a mark that another key has too.
pub fn share_marks(keys: &[Key], marks: u64) -> bool {
    by_mark(keys, marks).values().all(|group| group.len() > 1)
}

/// The lengths of the first two keys that have one number.
pub fn of_one_number(keys: &[Key]) -> Option<(usize, usize)> {
    let groups = by_mark(keys, 1 << 32);
    let group = groups.values().find(|group| group.len() > 1)?;
    Some((group[0].content.len(), group[1].content.len()))
}
