//! Reads bytes of the CBOR subset into a tree of values.

/// Containers may lie this deep; the outermost is the first level.
pub const LEVELS: usize = 8;

/// The one tag of the subset. It stands before an array and makes it a set.
const SET_TAG: u64 = 258;

/// RFC 7049's rule: the least number that does not fit a shorter head, by the
/// head's info from 24 on.
const LEAST: [u64; 4] = [24, 1 << 8, 1 << 16, 1 << 32];

#[derive(Clone, Debug, PartialEq, Eq, PartialOrd, Ord)]
pub enum Value<'a> {
    Unsigned(u64),
    /// Holds n where the number meant is -1 - n.
    Negative(u64),
    Bytes(&'a [u8]),
    Array(Vec<Value<'a>>),
    Set(Vec<Value<'a>>),
    Map(Vec<(Value<'a>, Value<'a>)>),
    False,
    True,
    Null,
}

/// The tree of the one item that fills `bytes`. None if the bytes are not
/// an item of the subset, or if some are missing or left over.
pub fn read_whole(bytes: &[u8]) -> Option<Value<'_>> {
    let mut reader = Reader::new(bytes);
    let value = reader.value(LEVELS)?;
    reader.rest.is_empty().then_some(value)
}

/// Whether the item that `bytes` begin with has a head that is not the
/// shortest for its number. False if they begin with no item of the subset.
pub fn is_loose(bytes: &[u8]) -> bool {
    let mut reader = Reader::new(bytes);
    reader.value(LEVELS).is_some() && reader.loose
}

/// The entries of the map that fills `bytes`, each with its value as the
/// bytes of the whole item. None if the bytes are no such map.
pub fn read_entries(bytes: &[u8]) -> Option<Vec<(Value<'_>, &[u8])>> {
    let mut reader = Reader::new(bytes);
    let head = reader.head()?;
    if head.major != 5 {
        return None;
    }
    let mut entries = Vec::new();
    for _ in 0..head.argument {
        let key = reader.plain()?;
        let start = reader.rest;
        reader.value(LEVELS - 1)?;
        entries.push((key, &start[..start.len() - reader.rest.len()]));
    }
    reader.rest.is_empty().then_some(entries)
}

struct Head {
    major: u8,
    /// The low five bits of the head's first byte.
    info: u8,
    argument: u64,
}

impl Head {
    /// A number below 24 stands in the first byte, and false, true and null
    /// have no other head.
    fn is_shortest(&self) -> bool {
        self.info < 24 || self.argument >= LEAST[usize::from(self.info) - 24]
    }
}

struct Reader<'a> {
    rest: &'a [u8],
    /// Whether a head so far was not the shortest.
    loose: bool,
}

impl<'a> Reader<'a> {
    fn new(bytes: &'a [u8]) -> Reader<'a> {
        Reader {
            rest: bytes,
            loose: false,
        }
    }

    fn take(&mut self, count: u64) -> Option<&'a [u8]> {
        let count = usize::try_from(count).ok()?;
        let (taken, rest) = self.rest.split_at_checked(count)?;
        self.rest = rest;
        Some(taken)
    }

    fn head(&mut self) -> Option<Head> {
        let first = self.take(1)?[0];
        let info = first & 0x1f;
        let argument = match info {
            0..=23 => u64::from(info),
            24..=27 => self.big_endian(1 << (info - 24))?,
            _ => return None,
        };
        let head = Head {
            major: first >> 5,
            info,
            argument,
        };
        self.loose |= !head.is_shortest();
        Some(head)
    }

    fn big_endian(&mut self, width: u64) -> Option<u64> {
        let bytes = self.take(width)?;
        Some(
            bytes
                .iter()
                .fold(0, |sum, byte| sum << 8 | u64::from(*byte)),
        )
    }

    /// `levels` is the number of container levels still open to this value.
    fn value(&mut self, levels: usize) -> Option<Value<'a>> {
        let head = self.head()?;
        match head.major {
            0 => Some(Value::Unsigned(head.argument)),
            1 => Some(Value::Negative(head.argument)),
            2 => Some(Value::Bytes(self.take(head.argument)?)),
            4 => self.array(head.argument, levels.checked_sub(1)?),
            5 => self.map(head.argument, levels.checked_sub(1)?),
            6 if head.argument == SET_TAG => {
                levels.checked_sub(1)?;
                self.set()
            }
            7 => simple(head.info),
            _ => None,
        }
    }

    /// A map key or a set member. Every value but a container may be one,
    /// so it is a value to which no level is open.
    fn plain(&mut self) -> Option<Value<'a>> {
        self.value(0)
    }

    // The counts below reach 2^64-1. Nothing is set aside for them: the
    // vectors grow with the items that are there.

    fn array(&mut self, count: u64, levels: usize) -> Option<Value<'a>> {
        let mut items = Vec::new();
        for _ in 0..count {
            items.push(self.value(levels)?);
        }
        Some(Value::Array(items))
    }

    fn map(&mut self, count: u64, levels: usize) -> Option<Value<'a>> {
        let mut entries = Vec::new();
        for _ in 0..count {
            let key = self.plain()?;
            entries.push((key, self.value(levels)?));
        }
        Some(Value::Map(entries))
    }

    /// What follows the set tag.
    fn set(&mut self) -> Option<Value<'a>> {
        let head = self.head()?;
        if head.major != 4 {
            return None;
        }
        let mut members = Vec::new();
        for _ in 0..head.argument {
            members.push(self.plain()?);
        }
        Some(Value::Set(members))
    }
}

/// Judged by the info and not by the argument: the two-byte forms of false,
/// true and null are outside the subset.
fn simple(info: u8) -> Option<Value<'static>> {
    match info {
        20 => Some(Value::False),
        21 => Some(Value::True),
        22 => Some(Value::Null),
        _ => None,
    }
}

#[cfg(test)]
mod tests {
    use super::*;

    #[test]
    fn published_integers() {
        let cases: [(&[u8], Value); 8] = [
            (&[0x00], Value::Unsigned(0)),
            (&[0x17], Value::Unsigned(23)),
            (&[0x18, 0x18], Value::Unsigned(24)),
            (&[0x19, 0x03, 0xe8], Value::Unsigned(1000)),
            (&[0x1a, 0x00, 0x0f, 0x42, 0x40], Value::Unsigned(1_000_000)),
            (
                &[0x1b, 0, 0, 0, 0xe8, 0xd4, 0xa5, 0x10, 0],
                Value::Unsigned(1_000_000_000_000),
            ),
            (&[0x20], Value::Negative(0)),
            (&[0x39, 0x03, 0xe7], Value::Negative(999)),
        ];
        for (bytes, value) in cases {
            assert_eq!(read_whole(bytes), Some(value), "{bytes:02x?}");
        }
    }

    #[test]
    fn every_width_reads_alike() {
        let zeros = [0; 8];
        for (info, width) in [(24, 1), (25, 2), (26, 4), (27, 8)] {
            let mut bytes = vec![0x40 | info];
            bytes.extend(&zeros[1..width]);
            bytes.extend([2, 0x68, 0x69]);
            assert_eq!(read_whole(&bytes), Some(Value::Bytes(b"hi")));
        }
    }

    /// Whether a head by this info, which holds the number, is noted, for each
    /// type. What a head is of need not follow.
    fn loose_heads(info: u8, number: u64) -> [bool; 6] {
        let width = 1 << (info - 24);
        [0, 1, 2, 4, 5, 6].map(|major: u8| {
            let bytes = [&[major << 5 | info], &number.to_be_bytes()[8 - width..]].concat();
            let mut reader = Reader::new(&bytes);
            assert!(reader.head().is_some_and(|head| head.argument == number));
            reader.loose
        })
    }

    /// The numbers at the edges, and the info of the shortest head of each.
    #[test]
    fn shortest_heads() {
        for (number, shortest) in [
            (0, 0),
            (23, 23),
            (24, 24),
            (255, 24),
            (256, 25),
            (65_535, 25),
            (65_536, 26),
            (0xffff_ffff, 26),
            (0x1_0000_0000, 27),
            (u64::MAX, 27),
        ] {
            for info in shortest.max(24)..28 {
                let loose = info > shortest;
                assert_eq!(loose_heads(info, number), [loose; 6], "{number} by {info}");
            }
        }
        for first in (0..=0xff_u8).filter(|first| first & 0x1f < 24) {
            let bytes = [first];
            let mut reader = Reader::new(&bytes);
            assert!(reader.head().is_some() && !reader.loose, "{first:02x}");
        }
    }

    #[test]
    fn loose_items() {
        let cases: [(&[u8], bool); 17] = [
            (b"\x17", false),
            (b"\x18\x17", true),
            (b"\x18\x18", false),
            (b"\x38\x17", true),
            (b"\x58\x01a", true),
            (b"\x42\x18\x01", false),
            (b"\x81\x18\x01", true),
            (b"\x98\x01\x01", true),
            (b"\xb8\x01\x01\x01", true),
            (b"\xa1\x18\x01\x01", true),
            (b"\xa1\x01\x18\x01", true),
            (b"\xd9\x01\x02\x81\x01", false),
            (b"\xda\0\0\x01\x02\x81\x01", true),
            (b"\xd9\x01\x02\x98\x01\x01", true),
            (b"\xd9\x01\x02\x81\x18\x01", true),
            (b"\x83\xf4\xf5\xf6", false),
            (b"\x82\x18\x01", false),
        ];
        for (bytes, loose) in cases {
            assert_eq!(is_loose(bytes), loose, "{bytes:02x?}");
        }
    }

    #[test]
    fn containers() {
        let one_and_two = vec![Value::Unsigned(1), Value::Unsigned(2)];
        assert_eq!(
            read_whole(&[0x82, 1, 2]),
            Some(Value::Array(one_and_two.clone()))
        );
        assert_eq!(
            read_whole(&[0xda, 0, 0, 1, 2, 0x82, 1, 2]),
            Some(Value::Set(one_and_two))
        );
        assert_eq!(
            read_whole(&[0xa1, 1, 0x80]),
            Some(Value::Map(vec![(Value::Unsigned(1), Value::Array(vec![]))]))
        );
    }

    #[test]
    fn outside_the_subset() {
        let cases: [&[u8]; 14] = [
            &[],
            &[0x00, 0x00],
            &[0x18],
            &[0x1c],
            &[0x41],
            &[0x60],
            &[0x9f, 0xff],
            &[0xf8, 0x14],
            &[0xf7],
            &[0xf9, 0x3c, 0x00],
            &[0xd9, 1, 2, 0xd9, 1, 2, 0x80],
            &[0xd9, 1, 2, 0x81, 0x80],
            &[0xa1, 0x80, 0x00],
            &[0x9b, 0xff, 0xff, 0xff, 0xff, 0xff, 0xff, 0xff, 0xff],
        ];
        for bytes in cases {
            assert_eq!(read_whole(bytes), None, "{bytes:02x?}");
        }
    }

    /// T11, and the same with a set as the innermost container.
    #[test]
    fn eight_levels() {
        let arrays = |count: usize| vec![0x81; count];
        let ended = |count: usize, end: &[u8]| [&arrays(count)[..], end].concat();
        assert!(read_whole(&ended(7, &[0x80])).is_some());
        assert!(read_whole(&ended(8, &[0x80])).is_none());
        assert!(read_whole(&ended(8, &[0x00])).is_some());
        assert!(read_whole(&ended(7, &[0xd9, 1, 2, 0x80])).is_some());
        assert!(read_whole(&ended(8, &[0xd9, 1, 2, 0x80])).is_none());
    }
}
