//! Every reason that a command has to be refused, not the first alone. A command
//! that the check refuses is read as far as it can be: the first `name` and the
//! first `args` of the map that its bytes begin with.

use second::value::{read_whole, Value};

/// What speaks against a command.
#[derive(Default)]
pub struct Reasons {
    pub unknown: bool,
    pub missing: bool,
    pub extra: bool,
    pub wrong_type: bool,
    pub null_on: bool,
    pub outside: bool,
    pub long: bool,
}

impl Reasons {
    pub fn unfit(&self) -> bool {
        self.missing || self.extra || self.wrong_type
    }
}

/// A command as far as it can be read.
pub struct Outline<'a> {
    pub name: &'a [u8],
    pub args: Vec<(&'a [u8], Value<'a>)>,
    pub redirected: bool,
    pub lacks_args: bool,
}

/// The longest beginning of the bytes that is one item.
fn tree(bytes: &[u8]) -> Option<Value<'_>> {
    (1..=bytes.len())
        .rev()
        .find_map(|end| read_whole(&bytes[..end]))
}

pub fn outline(bytes: &[u8]) -> Option<Outline<'_>> {
    let Some(Value::Map(entries)) = tree(bytes) else {
        return None;
    };
    let under = |key: &[u8]| {
        let mut found = entries.iter().filter(|entry| entry.0 == Value::Bytes(key));
        found.next().map(|entry| entry.1.clone())
    };
    let args = match under(b"args") {
        Some(Value::Map(args)) => args,
        _ => Vec::new(),
    };
    let named = |(key, value)| match key {
        Value::Bytes(key) => Some((key, value)),
        _ => None,
    };
    Some(Outline {
        name: match under(b"name") {
            Some(Value::Bytes(name)) => name,
            _ => b"",
        },
        args: args.into_iter().filter_map(named).collect(),
        redirected: under(b"redirect").is_some(),
        lacks_args: under(b"args").is_none(),
    })
}

impl<'a> Outline<'a> {
    pub fn argument(&self, key: &[u8]) -> Option<&Value<'a>> {
        let found = self.args.iter().find(|(held, _)| *held == key);
        found.map(|(_, value)| value)
    }

    pub fn coil(&self) -> Option<i128> {
        match self.argument(b"coil")? {
            Value::Unsigned(n) => Some(i128::from(*n)),
            Value::Negative(n) => Some(-1 - i128::from(*n)),
            _ => None,
        }
    }

    pub fn text(&self) -> Option<&'a [u8]> {
        match self.argument(b"text")? {
            Value::Bytes(text) => Some(text),
            _ => None,
        }
    }

    /// An unknown command is taken for the one that its arguments are nearest to.
    pub fn reasons(&self) -> Reasons {
        let wanted: &[&[u8]] = match self.name {
            b"set" => &[b"coil", b"on"],
            b"label" => &[b"coil", b"text"],
            b"off" => &[],
            _ if self.argument(b"text").is_some() => &[b"coil", b"text"],
            _ => &[b"coil", b"on"],
        };
        let of_type = |key: &[u8]| match (key, self.argument(key)) {
            (_, None) => true,
            (b"coil", _) => self.coil().is_some(),
            (b"text", _) => self.text().is_some(),
            (_, Some(value)) => matches!(value, Value::True | Value::False),
        };
        let takes = |key: &[u8]| wanted.contains(&key);
        Reasons {
            unknown: ![&b"set"[..], b"label", b"off"].contains(&self.name),
            missing: wanted.iter().any(|key| self.argument(key).is_none()),
            extra: self.args.iter().any(|(key, _)| !takes(key)),
            wrong_type: wanted.iter().any(|key| !of_type(key)),
            null_on: takes(b"on") && self.argument(b"on") == Some(&Value::Null),
            outside: self.coil().is_some_and(|coil| !(0..16).contains(&coil)),
            long: self.text().is_some_and(|text| text.len() > 16),
        }
    }
}

/// The bytes of the head of an argument's value, which stands right behind its key.
pub fn head_width(command: &[u8], key: &[u8]) -> Option<usize> {
    let item = second::command::argument(command, key);
    match item.first()? & 0x1f {
        0..=23 => Some(1),
        info => Some(1 + (1 << (info - 24))),
    }
}
