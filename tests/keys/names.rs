//! The names of what the commands are to meet.

/// How many keys `args` has.
pub const SIZES: [(&str, usize, usize); 15] = [
    ("2 to 15", 2, 15),
    ("16", 16, 16),
    ("17", 17, 17),
    ("18 to 399", 18, 399),
    ("400", 400, 400),
    ("401", 401, 401),
    ("402 to 512", 402, 512),
    ("513 to 571", 513, 571),
    ("572 to 1,022", 572, 1_022),
    ("1,023", 1_023, 1_023),
    ("1,024", 1_024, 1_024),
    ("1,025", 1_025, 1_025),
    ("1,026", 1_026, 1_026),
    ("1,027 to 2,048", 1_027, 2_048),
    ("2,049 or more", 2_049, usize::MAX),
];

/// How far the two keys of a double lie apart, where there is one double.
pub const DISTANCES: [(&str, usize, usize); 13] = [
    ("1", 1, 1),
    ("2 to 14", 2, 14),
    ("15", 15, 15),
    ("16", 16, 16),
    ("17", 17, 17),
    ("18 to 510", 18, 510),
    ("511", 511, 511),
    ("512", 512, 512),
    ("513 to 1,022", 513, 1_022),
    ("1,023", 1_023, 1_023),
    ("1,024", 1_024, 1_024),
    ("1,025", 1_025, 1_025),
    ("1,026 or more", 1_026, usize::MAX),
];

const WIDTHS: [usize; 5] = [1, 2, 3, 5, 9];

/// What must come up in one of 1,000 commands, beside the tables.
pub const MET: [&str; 44] = [
    "1 key, 0",
    "more than 500 keys in 2,000 to 2,048 bytes, 0",
    "more than 500 keys in 2,000 to 2,048 bytes, 26",
    "several doubles",
    "first and last are the double",
    "0: all keys of one length",
    "0: keys of several lengths",
    "0: the empty key",
    "26: the empty key twice",
    "0: a key begins another",
    "0: last byte alone differs",
    "0: first byte alone differs",
    "0: one byte between them alone differs",
    "0: last byte alone differs, of 100 or more",
    "0: first byte alone differs, of 100 or more",
    "0: keys rise",
    "0: keys fall",
    "0: keys from both ends",
    "0: keys in no order",
    "26: keys rise",
    "26: keys fall",
    "26: keys in no order",
    "0: each shares its mark modulo 64",
    "0: each shares its mark modulo 1,536",
    "0: each shares its mark modulo 65,536",
    "0: one number, one length",
    "0: one number, other lengths",
    "26: another key has the double's number",
    "0: a double inside a value",
    "0: a key of args inside a value",
    "0: a loose head",
    "0: no loose head",
    "26: name twice",
    "26: redirect twice",
    "26: args twice",
    "26: args twice, a double in the first alone",
    "26: args twice, a double in the second alone",
    "26: args twice, no double in either",
    "26: args twice, more than 16 keys in both",
    "26: name behind the eighth entry",
    "25 for an entry behind the eighth",
    "25 though a key of args is twice",
    "24 for a byte left over, else 26",
    "24 for a byte missing, else 26",
];

/// What is in long commands alone, which are few.
pub const FEW: [&str; 22] = [
    "0: a key past byte 65,535",
    "26: both of the double past byte 65,535",
    "26: one of the double past byte 65,535",
    "a key that starts at byte 65,535",
    "a key that starts at byte 65,536",
    "a key that ends at byte 65,535",
    "a key that ends at byte 65,536",
    "keys over more than 100,000 bytes",
    "a key that ends 65,535 bytes behind the start of the first block",
    "a key that ends 65,536 bytes behind the start of the first block",
    "a key that ends 65,535 bytes behind the start of the second block",
    "a key that ends 65,536 bytes behind the start of the second block",
    "0: a key longer than 65,535 bytes",
    "0: two such keys of one length",
    "0: such a key begins another",
    "26: such a key twice",
    "26: another key twice beside such a key",
    "up to 1,024 keys over more than 65,535 bytes, 0",
    "up to 1,024 keys over more than 65,535 bytes, 26",
    "more than 1,024 keys over more than 65,535 bytes, 0",
    "more than 1,024 keys over more than 65,535 bytes, 26",
    "1,026 keys or more, the double in two turns",
];

pub fn size_name(size: &str, number: u32) -> String {
    format!("{size} keys, {number}")
}

/// From this size on, commands are few.
pub const FEW_SIZES: usize = 8;
pub const FEW_DISTANCES: usize = 6;

pub fn distance_name(distance: &str) -> String {
    format!("the double {distance} apart")
}

pub fn width_name(one: usize, other: usize) -> String {
    let (low, high) = (one.min(other), one.max(other));
    format!("the double in heads of {low} and {high} bytes")
}

pub fn width_names() -> Vec<String> {
    let pairs = WIDTHS
        .iter()
        .flat_map(|one| WIDTHS.map(|other| (*one, other)));
    let rising = pairs.filter(|(one, other)| one <= other);
    rising.map(|(one, other)| width_name(one, other)).collect()
}

pub fn name_of(table: &'static [(&str, usize, usize)], number: usize) -> Option<&'static str> {
    let row = table
        .iter()
        .find(|(_, low, high)| (*low..=*high).contains(&number));
    row.map(|(name, _, _)| *name)
}

/// The names of the sizes and of the distances in these ranges.
pub fn table_names(
    sizes: &[(&str, usize, usize)],
    distances: &[(&str, usize, usize)],
) -> Vec<String> {
    let sizes = sizes
        .iter()
        .flat_map(|(size, _, _)| [0, 26].map(|number| size_name(size, number)));
    let distances = distances
        .iter()
        .map(|(distance, _, _)| distance_name(distance));
    sizes.chain(distances).collect()
}
