//! Judges the tree of a command, and looks arguments up in it.

use crate::value::{is_loose, read_entries, read_whole, Value};

#[derive(Clone, Copy, Debug, PartialEq, Eq)]
pub enum Refusal {
    Absent,
    NotAnInteger,
    OutOfRange,
    NotAnItem,
    NotACommand,
    DoubleKey,
}

impl Refusal {
    pub fn number(self) -> u32 {
        match self {
            Refusal::Absent => 6,
            Refusal::NotAnInteger => 7,
            Refusal::OutOfRange => 8,
            Refusal::NotAnItem => 24,
            Refusal::NotACommand => 25,
            Refusal::DoubleKey => 26,
        }
    }
}

type Entries<'a> = Vec<(Value<'a>, Value<'a>)>;

/// A command that passed the check.
#[derive(Debug)]
pub struct Command<'a> {
    pub name: &'a [u8],
    /// The keys are byte strings, each once. None if `args` is missing.
    pub args: Option<Entries<'a>>,
}

/// Judges 24 before 25 before 26, each over the whole command.
pub fn read(bytes: &[u8]) -> Result<Command<'_>, Refusal> {
    let tree = read_whole(bytes).ok_or(Refusal::NotAnItem)?;
    let Value::Map(entries) = tree else {
        return Err(Refusal::NotACommand);
    };
    let double = has_double_key(&entries);
    let command = shape(entries).ok_or(Refusal::NotACommand)?;
    if double || has_double_key(command.arguments()) {
        return Err(Refusal::DoubleKey);
    }
    Ok(command)
}

/// Where a key occurs several times, the last one is kept; the caller
/// refuses such a command anyway.
fn shape(entries: Entries<'_>) -> Option<Command<'_>> {
    let mut name = None;
    let mut args = None;
    for entry in entries {
        match entry {
            (Value::Bytes(b"name"), Value::Bytes(content)) if is_name(content) => {
                name = Some(content);
            }
            (Value::Bytes(b"args"), Value::Map(map)) if is_args(&map) => {
                args = Some(map);
            }
            (Value::Bytes(b"redirect"), Value::Map(_)) => {}
            _ => return None,
        }
    }
    Some(Command { name: name?, args })
}

fn is_name(content: &[u8]) -> bool {
    (1..=64).contains(&content.len())
}

fn is_args(map: &Entries<'_>) -> bool {
    map.iter().all(|(key, _)| matches!(key, Value::Bytes(_)))
}

/// The tree holds no heads, so equal values are equal by content.
fn has_double_key(entries: &[(Value<'_>, Value<'_>)]) -> bool {
    let mut keys: Vec<&Value> = entries.iter().map(|(key, _)| key).collect();
    keys.sort_unstable();
    keys.windows(2).any(|pair| pair[0] == pair[1])
}

impl<'a> Command<'a> {
    /// A missing `args` reads as an empty map.
    fn arguments(&self) -> &[(Value<'a>, Value<'a>)] {
        self.args.as_deref().unwrap_or_default()
    }

    pub fn argument(&self, key: &[u8]) -> Result<&Value<'a>, Refusal> {
        self.arguments()
            .iter()
            .find(|(held, _)| matches!(held, Value::Bytes(content) if *content == key))
            .map(|(_, value)| value)
            .ok_or(Refusal::Absent)
    }

    pub fn integer(&self, key: &[u8]) -> Result<i64, Refusal> {
        let (n, negative) = match self.argument(key)? {
            Value::Unsigned(n) => (*n, false),
            Value::Negative(n) => (*n, true),
            _ => return Err(Refusal::NotAnInteger),
        };
        let n = i64::try_from(n).map_err(|_| Refusal::OutOfRange)?;
        Ok(if negative { -1 - n } else { n })
    }
}

fn number<T>(answer: Result<T, Refusal>) -> u32 {
    answer.err().map_or(0, Refusal::number)
}

pub fn check(command: &[u8]) -> u32 {
    number(read(command))
}

/// Whether the command passes the check and has no `args`.
pub fn lacks_args(command: &[u8]) -> bool {
    read(command).is_ok_and(|command| command.args.is_none())
}

/// Whether the command passes the check and is written loosely: a head in it,
/// wherever it stands, is not the shortest for its number.
pub fn loose(command: &[u8]) -> bool {
    read(command).is_ok() && is_loose(command)
}

/// The number of arguments; 0 if the command is refused.
pub fn argument_count(command: &[u8]) -> u64 {
    read(command).map_or(0, |command| command.arguments().len() as u64)
}

/// The name's content; no bytes if the command is refused.
pub fn name(command: &[u8]) -> &[u8] {
    read(command).map_or(&[], |command| command.name)
}

/// The whole item of an argument; no bytes if its number is a refusal.
pub fn argument<'a>(command: &'a [u8], key: &[u8]) -> &'a [u8] {
    let passed = read(command).is_ok().then_some(command);
    passed
        .and_then(|command| item_under(command, b"args"))
        .and_then(|args| item_under(args, key))
        .unwrap_or(&[])
}

/// What stands under a key in the map that fills `map`.
fn item_under<'a>(map: &'a [u8], key: &[u8]) -> Option<&'a [u8]> {
    let mut entries = read_entries(map)?.into_iter();
    let found = entries.find(|(held, _)| *held == Value::Bytes(key));
    found.map(|(_, item)| item)
}

pub fn argument_number(command: &[u8], key: &[u8]) -> u32 {
    number(read(command).and_then(|command| command.argument(key).map(|_| ())))
}

pub fn integer_number(command: &[u8], key: &[u8]) -> u32 {
    number(read(command).and_then(|command| command.integer(key)))
}

pub fn integer(command: &[u8], key: &[u8]) -> i64 {
    read(command)
        .and_then(|command| command.integer(key))
        .unwrap_or(0)
}

#[cfg(test)]
mod tests {
    use super::*;

    const NAME: &[u8] = b"\x44name\x43set";

    fn with_argument(value: &[u8]) -> Vec<u8> {
        [b"\xa2", NAME, b"\x44args\xa1\x41k", value].concat()
    }

    /// T1's command bytes.
    #[test]
    fn whole_command() {
        let bytes = [b"\xa2", NAME, b"\x44args\xa0"].concat();
        let command = read(&bytes).unwrap();
        assert_eq!(command.name, b"set");
        assert_eq!(command.args, Some(vec![]));
    }

    /// E1: `args` may be missing, and `name` may not.
    #[test]
    fn missing_args() {
        let alone = [b"\xa1", NAME].concat();
        let redirected = [b"\xa2", NAME, b"\x48redirect\xa0"].concat();
        for bytes in [alone, redirected] {
            assert!(lacks_args(&bytes));
            assert_eq!(name(&bytes), b"set");
            assert_eq!(argument_count(&bytes), 0);
            assert_eq!(argument_number(&bytes, b"k"), 6);
            assert!(argument(&bytes, b"k").is_empty());
            assert_eq!(integer_number(&bytes, b"k"), 6);
            assert_eq!(integer(&bytes, b"k"), 0);
        }
        assert!(!lacks_args(&with_argument(b"\x05")));
        assert_eq!(check(b"\xa1\x44args\xa0"), 25);
        assert_eq!(check(b"\xa0"), 25);
    }

    /// E1: an `args` that is there is judged as before.
    #[test]
    fn present_args() {
        let of = |args: &[u8]| check(&[b"\xa2", NAME, b"\x44args", args].concat());
        assert_eq!(of(b"\x80"), 25);
        assert_eq!(of(b"\xf6"), 25);
        assert_eq!(of(b"\xa1\x01\x02"), 25);
        assert_eq!(of(b"\xa2\x41k\x01\x41k\x01"), 26);
        let twice = [b"\xa3", NAME, b"\x44args\xa0\x44args\xa0"].concat();
        assert_eq!(check(&twice), 26);
    }

    #[test]
    fn parts() {
        let bytes = with_argument(b"\x59\0\x02hi");
        assert_eq!(name(&bytes), b"set");
        assert_eq!(argument(&bytes, b"k"), b"\x59\0\x02hi");
        assert!(argument(&bytes, b"no").is_empty());
        assert!(argument(&bytes, b"name").is_empty());
        assert!(name(&bytes[1..]).is_empty());
        assert!(argument(&bytes[1..], b"k").is_empty());
        let first = [b"\xa2\x44args\xa2\x41j\x81\x20\x41k\x05", NAME].concat();
        assert_eq!(argument(&first, b"j"), b"\x81\x20");
        assert_eq!(argument_count(&first), 2);
        assert_eq!(argument_count(&bytes), 1);
        assert_eq!(argument_count(&bytes[1..]), 0);
    }

    /// The heads of a command in their order: the place of each, its type, its
    /// number, and what stands behind it.
    const HEADS: [(&str, u8, u64, &[u8]); 25] = [
        ("the outer map's head", 5, 3, b""),
        ("name's key", 2, 4, b"name"),
        ("name", 2, 3, b"set"),
        ("args' key", 2, 4, b"args"),
        ("args' head", 5, 4, b""),
        ("an argument's key", 2, 1, b"a"),
        ("an argument that is an integer", 0, 5, b""),
        ("the key of an array", 2, 1, b"b"),
        ("an array's head", 4, 3, b""),
        ("a negative integer in an array", 1, 0, b""),
        ("a byte string in an array", 2, 2, b"\x18\x01"),
        ("an array in an array", 4, 0, b""),
        ("the key of a deeper map", 2, 1, b"c"),
        ("a deeper map's head", 5, 1, b""),
        ("a key in a deeper map", 0, 0, b""),
        ("a value in a deeper map", 1, 23, b""),
        ("the key of a set", 2, 1, b"d"),
        ("a set's tag", 6, 258, b""),
        ("a set's array", 4, 3, b""),
        ("a set's member", 0, 23, b""),
        ("a byte string in a set", 2, 0, b"\xf6"),
        ("redirect's key", 2, 8, b"redirect"),
        ("redirect's head", 5, 1, b""),
        ("a key in redirect", 0, 9, b""),
        ("a value in redirect", 1, 9, b""),
    ];

    /// The command of these heads, each as short as can be, but for the one in
    /// this place, which is written by the info.
    fn written(loose: usize, info: u8) -> Vec<u8> {
        let mut bytes = Vec::new();
        for (place, (_, major, number, behind)) in HEADS.iter().enumerate() {
            let shortest = if *number < 24 { *number as u8 } else { 25 };
            let info = if place == loose { info } else { shortest };
            let width = if info < 24 { 0 } else { 1 << (info - 24) };
            bytes.push(major << 5 | info);
            bytes.extend(&number.to_be_bytes()[8 - width..]);
            bytes.extend(*behind);
        }
        bytes
    }

    /// E5: one head that is not the shortest makes the command loose, in
    /// whatever place.
    #[test]
    fn loose_in_each_place() {
        let shortest = written(HEADS.len(), 0);
        assert_eq!((check(&shortest), loose(&shortest)), (0, false));
        for (place, (name, _, number, _)) in HEADS.iter().enumerate() {
            for info in (24..28).filter(|info| *info > 25 || *number < 24) {
                let bytes = written(place, info);
                assert_eq!((check(&bytes), loose(&bytes)), (0, true), "{name}, {info}");
            }
        }
    }

    /// E5: a command that the check refuses is not loose, whatever its heads.
    #[test]
    fn refused_is_not_loose() {
        for (bytes, number) in [
            (&b"\xb8\x02"[..], 24),
            (b"\xb8\x01\x44name\x43set\0", 24),
            (b"\x18\x01", 25),
            (b"\xb8\x01\x44args\xa0", 25),
            (b"\xb8\x02\x44name\x43set\x44name\x43set", 26),
        ] {
            assert_eq!((check(bytes), loose(bytes)), (number, false));
        }
        assert!(loose(b"\xb8\x01\x44name\x43set"));
        assert!(!loose(b"\xa1\x44name\x43set"));
    }

    /// T8 and T9.
    #[test]
    fn integers() {
        let cases: [(&[u8], Result<i64, Refusal>); 7] = [
            (b"\x3b\x7f\xff\xff\xff\xff\xff\xff\xff", Ok(i64::MIN)),
            (b"\x3b\x80\0\0\0\0\0\0\0", Err(Refusal::OutOfRange)),
            (b"\x20", Ok(-1)),
            (b"\x1b\x7f\xff\xff\xff\xff\xff\xff\xff", Ok(i64::MAX)),
            (b"\x1b\x80\0\0\0\0\0\0\0", Err(Refusal::OutOfRange)),
            (b"\x1a\0\0\0\x05", Ok(5)),
            (b"\x41\x05", Err(Refusal::NotAnInteger)),
        ];
        for (value, answer) in cases {
            let bytes = with_argument(value);
            assert_eq!(check(&bytes), 0);
            assert_eq!(read(&bytes).unwrap().integer(b"k"), answer, "{value:02x?}");
            assert_eq!(argument_number(&bytes, b"no"), 6);
        }
    }

    /// T10.
    #[test]
    fn empty_command() {
        assert_eq!(check(b""), 24);
    }

    /// T11. The outer map and the args map are two of the levels.
    #[test]
    fn levels() {
        assert_eq!(check(&with_argument(b"\x81\x81\x81\x81\x81\x80")), 0);
        assert_eq!(check(&with_argument(b"\x81\x81\x81\x81\x81\x81\x80")), 24);
    }

    #[test]
    fn lower_numbers_first() {
        let twice = [b"\xa2", NAME, NAME].concat();
        assert_eq!(check(&twice), 26);
        let twice_no_name = b"\xa2\x44args\xa0\x44args\xa0";
        assert_eq!(check(twice_no_name), 25);
        let left_over = [&twice_no_name[..], b"\0"].concat();
        assert_eq!(check(&left_over), 24);
    }

    #[test]
    fn keys_of_other_width_are_equal() {
        let bytes = [b"\xa2", NAME, b"\x44args\xa2\x41k\0\x59\0\x01k\x01"].concat();
        assert_eq!(check(&bytes), 26);
        let deeper = with_argument(b"\xa2\x41k\0\x59\0\x01k\x01");
        assert_eq!(check(&deeper), 0);
    }
}
