//! How often the commands meet each thing that is to be met.

use crate::counts::Counts;
use crate::names::{distance_name, name_of, size_name, table_names, width_name, width_names};
use crate::names::{DISTANCES, FEW, FEW_DISTANCES, FEW_SIZES, MET, SIZES};
use crate::near;
use crate::view::{doubles, in_order, span, view, Key, View};
use second::command::check;
use second::frame::COMMAND_BYTES;
use second::value::{is_loose, read_whole, Value};
use std::cmp::Ordering;
use std::collections::BTreeSet;

/// The last place that 16 bits hold.
const LAST_PLACE: usize = 0xffff;

/// How many keys a turn of the search takes where there are more than 1,024: one
/// by itself, and a block of 1,024.
const TURN: usize = 1_025;

pub struct Coverage {
    counts: Counts,
    /// How many names come before those of `FEW`.
    often: usize,
}

impl Coverage {
    pub fn new() -> Coverage {
        let mut names = table_names(&SIZES[..FEW_SIZES], &DISTANCES[..FEW_DISTANCES]);
        names.extend(width_names());
        names.extend(MET.map(String::from));
        let often = names.len();
        names.extend(table_names(
            &SIZES[FEW_SIZES..],
            &DISTANCES[FEW_DISTANCES..],
        ));
        names.extend(FEW.map(String::from));
        Coverage {
            counts: Counts::of(names),
            often,
        }
    }

    pub fn print(&self) {
        self.counts.print();
    }

    /// Something that came up in less than one of 1,000 commands or, of what is
    /// in long commands alone, of 10,000.
    pub fn rare(&self, commands: u64) -> Option<&str> {
        let one_of = |place| if place < self.often { 1_000 } else { 10_000 };
        self.counts
            .rare(|place| commands.div_ceil(one_of(place)).max(1))
    }

    fn add_if(&mut self, met: bool, name: &str) {
        if met {
            self.counts.add(name);
        }
    }

    /// A command, and what the check answers.
    pub fn command(&mut self, command: &[u8], number: u32) {
        match (number, view(command)) {
            (24, _) => self.no_item(command),
            (25, Some(view)) => self.no_command(command, &view),
            (0, Some(view)) => self.accepted(command, &view),
            (26, Some(view)) => self.double(command, &view),
            _ => {}
        }
    }

    fn no_item(&mut self, command: &[u8]) {
        let without = &command[..command.len().saturating_sub(1)];
        self.add_if(check(without) == 26, "24 for a byte left over, else 26");
        let with = [command, &[0]].concat();
        self.add_if(check(&with) == 26, "24 for a byte missing, else 26");
    }

    fn no_command(&mut self, command: &[u8], view: &View) {
        let twice = view.args.iter().any(|keys| !doubles(keys).is_empty());
        self.add_if(twice, "25 though a key of args is twice");
        let eight = first_entries(command, 8).is_some_and(|first| check(&first) == 26);
        self.add_if(eight, "25 for an entry behind the eighth");
    }

    fn accepted(&mut self, command: &[u8], view: &View) {
        let loose = is_loose(command);
        self.add_if(loose, "0: a loose head");
        self.add_if(!loose, "0: no loose head");
        let Some(keys) = view.args.first() else {
            return;
        };
        self.size(command, keys, 0);
        self.add_if(keys.len() == 1, "1 key, 0");
        if keys.len() > 1 {
            self.lengths(keys);
            self.marks(keys);
        }
        if keys.len() > 4 {
            self.order(keys);
        }
        self.deeper(keys, &view.values[0]);
        self.far(keys);
    }

    fn size(&mut self, command: &[u8], keys: &[Key], number: u32) {
        if let Some(size) = name_of(&SIZES, keys.len()) {
            self.counts.add(&size_name(size, number));
        }
        let full = (2_000..=COMMAND_BYTES).contains(&command.len()) && keys.len() > 500;
        let name = "more than 500 keys in 2,000 to 2,048 bytes, ";
        self.add_if(full, &format!("{name}{number}"));
        let past = span(keys).len() > LAST_PLACE;
        let name = " keys over more than 65,535 bytes, ";
        self.add_if(
            past && keys.len() <= 1_024,
            &format!("up to 1,024{name}{number}"),
        );
        self.add_if(
            past && keys.len() > 1_024,
            &format!("more than 1,024{name}{number}"),
        );
        self.edge(keys, LAST_PLACE, "65,535");
        self.edge(keys, LAST_PLACE + 1, "65,536");
        let far = span(keys).len() > 100_000;
        self.add_if(far, "keys over more than 100,000 bytes");
    }

    fn edge(&mut self, keys: &[Key], place: usize, text: &str) {
        let starts = keys.iter().any(|key| key.at == place);
        self.add_if(starts, &format!("a key that starts at byte {text}"));
        let ends = keys.iter().any(|key| key.end() == place);
        self.add_if(ends, &format!("a key that ends at byte {text}"));
        for (first, block) in [(1, "the first block"), (TURN + 1, "the second block")] {
            let start = keys.get(first).map(|key| key.at - key.head);
            let behind = |start| keys.iter().any(|key| key.end() == start + place);
            let name = format!("a key that ends {text} bytes behind the start of {block}");
            self.add_if(start.is_some_and(behind), &name);
        }
    }

    fn lengths(&mut self, keys: &[Key]) {
        let one = near::one_length(keys);
        self.add_if(one, "0: all keys of one length");
        self.add_if(!one, "0: keys of several lengths");
        let empty = keys.iter().any(|key| key.content.is_empty());
        self.add_if(empty, "0: the empty key");
        self.add_if(near::one_begins_another(keys), "0: a key begins another");
        self.add_if(near::last_byte_apart(keys, 0), "0: last byte alone differs");
        self.add_if(
            near::first_byte_apart(keys, 0),
            "0: first byte alone differs",
        );
        self.add_if(
            near::inner_byte_apart(keys),
            "0: one byte between them alone differs",
        );
        let last = near::last_byte_apart(keys, 100);
        self.add_if(last, "0: last byte alone differs, of 100 or more");
        let first = near::first_byte_apart(keys, 100);
        self.add_if(first, "0: first byte alone differs, of 100 or more");
    }

    fn order(&mut self, keys: &[Key]) {
        let ends = near::from_both_ends(keys);
        self.add_if(near::rise(keys), "0: keys rise");
        self.add_if(near::fall(keys), "0: keys fall");
        self.add_if(ends, "0: keys from both ends");
        let none = !near::rise(keys) && !near::fall(keys) && !ends;
        self.add_if(none, "0: keys in no order");
    }

    fn marks(&mut self, keys: &[Key]) {
        for (marks, text) in [(64, "64"), (1_536, "1,536"), (65_536, "65,536")] {
            let met = near::share_marks(keys, marks);
            self.add_if(met, &format!("0: each shares its mark modulo {text}"));
        }
        let lengths = near::of_one_number(keys);
        let (one, other) = lengths.unwrap_or((0, 0));
        self.add_if(
            lengths.is_some() && one == other,
            "0: one number, one length",
        );
        self.add_if(
            lengths.is_some() && one != other,
            "0: one number, other lengths",
        );
    }

    /// What stands in the values, where a double is allowed.
    fn deeper(&mut self, keys: &[Key], values: &[&[u8]]) {
        let known: BTreeSet<&[u8]> = keys.iter().map(|key| key.content).collect();
        let maps = values.iter().filter_map(|item| match read_whole(item) {
            Some(Value::Map(entries)) => Some(entries),
            _ => None,
        });
        let (mut double, mut again) = (false, false);
        for entries in maps {
            let mut inner: Vec<&Value> = entries.iter().map(|(key, _)| key).collect();
            inner.sort_unstable();
            double |= inner.windows(2).any(|pair| pair[0] == pair[1]);
            again |= inner
                .iter()
                .any(|key| matches!(key, Value::Bytes(content) if known.contains(content)));
        }
        self.add_if(double, "0: a double inside a value");
        self.add_if(again, "0: a key of args inside a value");
    }

    /// Keys past byte 65,535, and longer ones, all of them distinct.
    fn far(&mut self, keys: &[Key]) {
        let past = keys.iter().any(|key| key.end() > LAST_PLACE);
        self.add_if(past, "0: a key past byte 65,535");
        let long: Vec<Key> = keys.iter().filter(|key| is_long(key)).copied().collect();
        self.add_if(!long.is_empty(), "0: a key longer than 65,535 bytes");
        let two = long.len() == 2 && near::one_length(&long);
        self.add_if(two, "0: two such keys of one length");
        let begins = long.len() == 2 && near::one_begins_another(&long);
        self.add_if(begins, "0: such a key begins another");
    }

    fn double(&mut self, command: &[u8], view: &View) {
        let times = |name: &[u8]| view.outer.iter().filter(|key| **key == name).count();
        self.add_if(times(b"name") > 1, "26: name twice");
        self.add_if(times(b"redirect") > 1, "26: redirect twice");
        self.add_if(times(b"args") > 1, "26: args twice");
        let place = view.outer.iter().position(|key| *key == b"name");
        self.add_if(
            place.is_some_and(|place| place > 7),
            "26: name behind the eighth entry",
        );
        match &view.args[..] {
            [one, other] => self.two_args(one, other),
            [keys] if times(b"name") == 1 && times(b"redirect") < 2 => {
                self.double_key(command, keys)
            }
            _ => {}
        }
    }

    fn two_args(&mut self, one: &[Key], other: &[Key]) {
        let name = match (doubles(one).is_empty(), doubles(other).is_empty()) {
            (false, true) => "26: args twice, a double in the first alone",
            (true, false) => "26: args twice, a double in the second alone",
            (true, true) => "26: args twice, no double in either",
            _ => return,
        };
        self.counts.add(name);
        let many = one.len() > 16 && other.len() > 16;
        self.add_if(many, "26: args twice, more than 16 keys in both");
    }

    /// `args` has a double, and nothing else speaks against the command.
    fn double_key(&mut self, command: &[u8], keys: &[Key]) {
        self.size(command, keys, 26);
        match doubles(keys)[..] {
            [(one, other)] => self.one_double(keys, one.min(other), one.max(other)),
            _ => self.counts.add("several doubles"),
        }
        let no_order = !near::rise(keys) && !near::fall(keys);
        self.add_if(near::rise(keys) && keys.len() > 4, "26: keys rise");
        self.add_if(near::fall(keys) && keys.len() > 4, "26: keys fall");
        self.add_if(no_order, "26: keys in no order");
        let long = keys.iter().any(|key| is_long(key));
        let of_long = doubles(keys)
            .iter()
            .any(|(place, _)| is_long(&keys[*place]));
        self.add_if(of_long, "26: such a key twice");
        self.add_if(long && !of_long, "26: another key twice beside such a key");
    }

    fn one_double(&mut self, keys: &[Key], first: usize, last: usize) {
        let (one, other) = (&keys[first], &keys[last]);
        if let Some(distance) = name_of(&DISTANCES, last - first) {
            self.counts.add(&distance_name(distance));
        }
        let ends = keys.len() > 2 && last - first == keys.len() - 1;
        self.add_if(ends, "first and last are the double");
        self.counts.add(&width_name(one.head, other.head));
        self.add_if(one.content.is_empty(), "26: the empty key twice");
        let (before, past) = (one.end() <= LAST_PLACE, other.end() > LAST_PLACE);
        self.add_if(!before && past, "26: both of the double past byte 65,535");
        self.add_if(before && past, "26: one of the double past byte 65,535");
        self.add_if(
            first / TURN != last / TURN,
            "1,026 keys or more, the double in two turns",
        );
        let others: Vec<Key> = keys
            .iter()
            .filter(|key| in_order(key, one) != Ordering::Equal)
            .copied()
            .collect();
        let shares = others
            .iter()
            .any(|key| near::number(key) == near::number(one));
        self.add_if(shares, "26: another key has the double's number");
    }
}

fn is_long(key: &Key) -> bool {
    key.content.len() > LAST_PLACE
}

/// A command of the outer map's first entries, so many, if it has more.
fn first_entries(command: &[u8], count: u8) -> Option<Vec<u8>> {
    let entries = second::value::read_entries(command)?;
    let (_, last) = entries[..].get(usize::from(count) - 1)?;
    if entries.len() == usize::from(count) {
        return None;
    }
    let end = last.as_ptr() as usize + last.len() - command.as_ptr() as usize;
    let Value::Bytes(first) = entries[0].0 else {
        return None;
    };
    let start = first.as_ptr() as usize - command.as_ptr() as usize;
    let key = [0x58, first.len() as u8];
    Some([&[0xa0 | count][..], &key, &command[start..end]].concat())
}
