//! The heads in a command's bytes, and the place of each.

use crate::item::{shortest_info, ARRAY, BYTES, MAP, SIMPLE, TAG};

/// Where a head stands in a command. Inside `redirect` all stand in one place.
#[derive(Clone, Copy, Debug, PartialEq, Eq)]
pub enum Place {
    OuterMap,
    NameKey,
    Name,
    ArgsKey,
    Args,
    ArgumentKey,
    Argument,
    Array,
    InArray,
    DeeperMap,
    DeeperKey,
    DeeperValue,
    SetTag,
    SetArray,
    SetMember,
    RedirectKey,
    Redirect,
    InRedirect,
}

impl Place {
    pub const ALL: [Place; 18] = [
        Place::OuterMap,
        Place::NameKey,
        Place::Name,
        Place::ArgsKey,
        Place::Args,
        Place::ArgumentKey,
        Place::Argument,
        Place::Array,
        Place::InArray,
        Place::DeeperMap,
        Place::DeeperKey,
        Place::DeeperValue,
        Place::SetTag,
        Place::SetArray,
        Place::SetMember,
        Place::RedirectKey,
        Place::Redirect,
        Place::InRedirect,
    ];

    pub fn name(self) -> &'static str {
        match self {
            Place::OuterMap => "the outer map's head",
            Place::NameKey => "name's key",
            Place::Name => "name",
            Place::ArgsKey => "args' key",
            Place::Args => "args' head",
            Place::ArgumentKey => "an argument's key",
            Place::Argument => "an argument",
            Place::Array => "an array's head",
            Place::InArray => "an item in an array",
            Place::DeeperMap => "a deeper map's head",
            Place::DeeperKey => "a key in a deeper map",
            Place::DeeperValue => "a value in a deeper map",
            Place::SetTag => "a set's tag",
            Place::SetArray => "a set's array",
            Place::SetMember => "a set's member",
            Place::RedirectKey => "redirect's key",
            Place::Redirect => "redirect's head",
            Place::InRedirect => "an item in redirect",
        }
    }

    /// This place, or the one inside `redirect` if `outer` is there.
    fn inside(self, outer: Place) -> Place {
        match outer {
            Place::Redirect | Place::InRedirect => Place::InRedirect,
            _ => self,
        }
    }
}

/// A head: its place in the command, where it stands in the bytes and how many
/// it has, its type, its info and its number.
#[derive(Clone, Copy, Debug, PartialEq, Eq)]
pub struct Head {
    pub place: Place,
    pub at: usize,
    pub length: usize,
    pub major: u8,
    pub info: u8,
    pub number: u64,
}

impl Head {
    /// Whether a shorter head holds the number.
    pub fn is_loose(&self) -> bool {
        self.info != shortest_info(self.number)
    }
}

/// The heads of a command that passes the check, in their order. False, true and
/// null, which have one head each, are left out.
pub fn heads(command: &[u8]) -> Vec<Head> {
    let mut walk = Walk {
        command,
        at: 0,
        heads: Vec::new(),
    };
    let entries = walk.head(Place::OuterMap).number;
    for _ in 0..entries {
        walk.entry();
    }
    walk.heads
}

struct Walk<'c> {
    command: &'c [u8],
    at: usize,
    heads: Vec<Head>,
}

impl<'c> Walk<'c> {
    fn take(&mut self, count: usize) -> &'c [u8] {
        let taken = &self.command[self.at..][..count];
        self.at += count;
        taken
    }

    fn head(&mut self, place: Place) -> Head {
        let at = self.at;
        let first = self.take(1)[0];
        let info = first & 0x1f;
        let number = match info {
            0..=23 => info.into(),
            _ => {
                let behind = self.take(1 << (info - 24)).iter();
                behind.fold(0, |number, byte| number << 8 | u64::from(*byte))
            }
        };
        let head = Head {
            place,
            at,
            length: self.at - at,
            major: first >> 5,
            info,
            number,
        };
        self.heads.push(head);
        head
    }

    /// An entry of the outer map. The key says what the places are.
    fn entry(&mut self) {
        let key = self.head(Place::NameKey);
        let content = self.take(key.number as usize);
        let (of_key, of_value) = match content {
            b"name" => (Place::NameKey, Place::Name),
            b"args" => (Place::ArgsKey, Place::Args),
            _ => (Place::RedirectKey, Place::Redirect),
        };
        let last = self.heads.len() - 1;
        self.heads[last].place = of_key;
        self.value(of_value);
    }

    /// An item in this place.
    fn value(&mut self, place: Place) {
        match (self.command[self.at] >> 5, place) {
            (BYTES, _) => {
                let count = self.head(place).number as usize;
                self.take(count);
            }
            (ARRAY, _) => self.items(Place::Array.inside(place), &[Place::InArray]),
            (MAP, Place::Args) => self.items(place, &[Place::ArgumentKey, Place::Argument]),
            (MAP, Place::Redirect) => self.items(place, &[Place::InRedirect; 2]),
            (MAP, _) => {
                let inner = [Place::DeeperKey, Place::DeeperValue];
                self.items(Place::DeeperMap.inside(place), &inner);
            }
            (TAG, _) => {
                self.head(Place::SetTag.inside(place));
                self.items(Place::SetArray.inside(place), &[Place::SetMember]);
            }
            (SIMPLE, _) => self.at += 1,
            _ => {
                self.head(place);
            }
        }
    }

    /// A container whose head stands in this place, and so many times as it says
    /// the items in it.
    fn items(&mut self, place: Place, inner: &[Place]) {
        for _ in 0..self.head(place).number {
            for inner in inner {
                self.value(inner.inside(place));
            }
        }
    }
}
