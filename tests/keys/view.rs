//! The keys of a command, with the places that they have in its bytes.

use second::value::{read_entries, Value};
use std::cmp::Ordering;
use std::ops::Range;

#[derive(Clone, Copy)]
pub struct Key<'a> {
    pub content: &'a [u8],
    /// The place of the content in the command.
    pub at: usize,
    /// The bytes of its head.
    pub head: usize,
}

impl Key<'_> {
    pub fn end(&self) -> usize {
        self.at + self.content.len()
    }
}

/// By length, then by content.
pub fn in_order(one: &Key, other: &Key) -> Ordering {
    let rank = |key: &Key| key.content.len();
    rank(one)
        .cmp(&rank(other))
        .then_with(|| one.content.cmp(other.content))
}

pub struct View<'a> {
    /// The keys of the outer map.
    pub outer: Vec<&'a [u8]>,
    /// The keys of each `args`, those that are byte strings, in their order.
    pub args: Vec<Vec<Key<'a>>>,
    /// The values of each `args`.
    pub values: Vec<Vec<&'a [u8]>>,
}

/// What can be told of a command that is one item, with `args` a map.
pub fn view(command: &[u8]) -> Option<View<'_>> {
    let mut view = View {
        outer: Vec::new(),
        args: Vec::new(),
        values: Vec::new(),
    };
    for (key, item) in read_entries(command)? {
        let Value::Bytes(content) = key else {
            continue;
        };
        view.outer.push(content);
        if content == b"args" {
            view.args.push(keys(command, item)?);
            view.values.push(values(item)?);
        }
    }
    Some(view)
}

fn values(map: &[u8]) -> Option<Vec<&[u8]>> {
    Some(
        read_entries(map)?
            .into_iter()
            .map(|(_, item)| item)
            .collect(),
    )
}

/// The keys of a map that is a part of the command.
fn keys<'a>(command: &'a [u8], map: &'a [u8]) -> Option<Vec<Key<'a>>> {
    const WIDTHS: [usize; 5] = [1, 2, 3, 5, 9];
    let width = |byte: u8| WIDTHS[usize::from((byte & 0x1f).saturating_sub(23))];
    let place = |part: &[u8]| part.as_ptr() as usize - command.as_ptr() as usize;
    let mut next = place(map) + width(map[0]);
    let mut keys = Vec::new();
    for (key, item) in read_entries(map)? {
        if let Value::Bytes(content) = key {
            let head = place(content) - next;
            keys.push(Key {
                content,
                at: place(content),
                head,
            });
        }
        next = place(item) + item.len();
    }
    Some(keys)
}

/// The places, in the row, of two keys that are equal with no such key between them.
pub fn doubles(keys: &[Key]) -> Vec<(usize, usize)> {
    let mut places: Vec<usize> = (0..keys.len()).collect();
    places.sort_by(|one, other| in_order(&keys[*one], &keys[*other]));
    let pairs = places.windows(2).map(|pair| (pair[0], pair[1]));
    pairs
        .filter(|(one, other)| keys[*one].content == keys[*other].content)
        .collect()
}

/// The bytes from the first key's content to the end of the last.
pub fn span(keys: &[Key]) -> Range<usize> {
    match (keys.first(), keys.last()) {
        (Some(first), Some(last)) => first.at..last.end(),
        _ => 0..0,
    }
}
