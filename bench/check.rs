//! The command check by hand, for comparing times: one walk over the bytes,
//! and nothing allocated.

const LEVELS: u8 = 8;

/// Up to so many keys are compared pairwise, more are put into a table.
const FEW: usize = 8;
/// Twice as many places as a longest command can have keys.
const TABLE: usize = crate::hgrpc::COMMAND_LONGEST;

/// A key's content: the place where it starts, and its length.
type Key = (u16, u16);

/// The least number that does not fit a shorter head, by the head's info from 24
/// on.
const LEAST: [u64; 4] = [24, 0x100, 0x1_0000, 0x1_0000_0000];

struct Reader<'a> {
    bytes: &'a [u8],
    at: usize,
    /// Whether a head so far was not the shortest.
    loose: bool,
}

impl<'a> Reader<'a> {
    fn new(bytes: &'a [u8]) -> Reader<'a> {
        Reader {
            bytes,
            at: 0,
            loose: false,
        }
    }
}

/// What the check says of a command.
#[derive(PartialEq, Eq)]
pub struct Checked {
    pub number: u8,
    /// Whether it is accepted, and a head in it is not the shortest.
    pub loose: bool,
}

/// What is known of the entries of `args`.
struct Args {
    fits: bool,
    double: bool,
}

struct Head {
    major: u8,
    info: u8,
    argument: u64,
}

/// 0, or 24 before 25 before 26, each over the whole command.
pub fn check(command: &[u8]) -> Checked {
    let mut reader = Reader::new(command);
    let number = match reader.command() {
        Some(number) if reader.at == command.len() => number,
        _ => 24,
    };
    Checked {
        number,
        loose: number == 0 && reader.loose,
    }
}

/// Whether a settings payload is one byte string that reads `identity`.
pub fn is_identity(payload: &[u8]) -> bool {
    let mut reader = Reader::new(payload);
    let content = match reader.head() {
        Some(head) if head.major == 2 => reader.take(head.argument),
        _ => None,
    };
    content == Some(b"identity") && reader.at == payload.len()
}

impl<'a> Reader<'a> {
    #[inline(always)]
    fn head(&mut self) -> Option<Head> {
        let first = *self.bytes.get(self.at)?;
        self.at += 1;
        let info = first & 0x1f;
        let argument = match info {
            0..=23 => u64::from(info),
            24..=27 => {
                let argument = self.wide(1 << (info - 24))?;
                self.loose |= argument < LEAST[usize::from(info - 24)];
                argument
            }
            _ => return None,
        };
        Some(Head {
            major: first >> 5,
            info,
            argument,
        })
    }

    fn wide(&mut self, width: u64) -> Option<u64> {
        let bytes = self.take(width)?;
        let joined = |sum, byte: &u8| sum << 8 | u64::from(*byte);
        Some(bytes.iter().fold(0, joined))
    }

    #[inline(always)]
    fn take(&mut self, count: u64) -> Option<&'a [u8]> {
        let rest = &self.bytes[self.at..];
        if count > rest.len() as u64 {
            return None;
        }
        self.at += count as usize;
        Some(&rest[..count as usize])
    }

    /// Passes what follows a head, with so many levels of containers left.
    fn pass(&mut self, head: Head, levels: u8) -> Option<()> {
        match head.major {
            0 | 1 => Some(()),
            2 => self.take(head.argument).map(|_| ()),
            4 if levels > 0 => {
                for _ in 0..head.argument {
                    self.value(levels - 1)?;
                }
                Some(())
            }
            5 if levels > 0 => {
                for _ in 0..head.argument {
                    self.value(0)?;
                    self.value(levels - 1)?;
                }
                Some(())
            }
            6 if levels > 0 && head.argument == 258 => {
                let members = self.head().filter(|head| head.major == 4)?;
                for _ in 0..members.argument {
                    self.value(0)?;
                }
                Some(())
            }
            7 if (20..=22).contains(&head.info) => Some(()),
            _ => None,
        }
    }

    fn value(&mut self, levels: u8) -> Option<()> {
        let head = self.head()?;
        self.pass(head, levels)
    }

    /// The next item as a byte string's content; any other item that may be
    /// a key is passed, and the inner answer is none.
    fn key(&mut self) -> Option<Option<&'a [u8]>> {
        let head = self.head()?;
        if head.major == 2 {
            return self.take(head.argument).map(Some);
        }
        self.pass(head, 0)?;
        Some(None)
    }

    fn command(&mut self) -> Option<u8> {
        let head = self.head()?;
        if head.major != 5 {
            self.pass(head, LEVELS)?;
            return Some(25);
        }
        let mut fits = true;
        let mut double = false;
        let (mut names, mut args) = (0, 0);
        let mut redirects = 0;
        for _ in 0..head.argument {
            let key = self.key()?;
            let value = self.head()?;
            match (key, value.major) {
                (Some(b"name"), 2) => {
                    names += 1;
                    fits &= (1..=64).contains(&value.argument);
                    self.take(value.argument)?;
                }
                (Some(b"args"), 5) => {
                    args += 1;
                    let number = self.args(value.argument)?;
                    fits &= number != 25;
                    double |= number == 26;
                }
                (Some(b"redirect"), 5) => {
                    redirects += 1;
                    self.pass(value, LEVELS - 1)?;
                }
                _ => {
                    fits = false;
                    self.pass(value, LEVELS - 1)?;
                }
            }
        }
        if !fits || names == 0 {
            return Some(25);
        }
        let twice = names > 1 || args > 1 || redirects > 1;
        Some(if double || twice { 26 } else { 0 })
    }

    /// The entries of `args`: 0, 25 or 26. While there are few keys, each is
    /// compared with those before it.
    fn args(&mut self, count: u64) -> Option<u8> {
        let mut few: [Key; FEW] = [(0, 0); FEW];
        let mut state = Args {
            fits: true,
            double: false,
        };
        for passed in 0..count.min(FEW as u64) as usize {
            let Some(key) = self.key()? else {
                state.fits = false;
                self.value(LEVELS - 2)?;
                continue;
            };
            let mut earlier = few[..passed].iter();
            state.double |= earlier.any(|held| self.is_same(*held, key));
            few[passed] = self.passed(key);
            self.value(LEVELS - 2)?;
        }
        if count > FEW as u64 {
            self.many(&few, count - FEW as u64, &mut state)?;
        }
        Some(match state {
            Args { fits: false, .. } => 25,
            Args { double: true, .. } => 26,
            _ => 0,
        })
    }

    /// The further entries: keys go into a table by a sum of their bytes.
    fn many(&mut self, few: &[Key; FEW], count: u64, state: &mut Args) -> Option<()> {
        let mut table: [Key; TABLE] = [(0, 0); TABLE];
        for held in few {
            let content = &self.bytes[usize::from(held.0)..][..usize::from(held.1)];
            state.double |= self.insert(&mut table, content, *held);
        }
        for _ in 0..count {
            match self.key()? {
                Some(key) => state.double |= self.insert(&mut table, key, self.passed(key)),
                None => state.fits = false,
            }
            self.value(LEVELS - 2)?;
        }
        Some(())
    }

    /// Whether the table held the key. No key starts at place 0, where the
    /// outer map's head is.
    #[inline(always)]
    fn insert(&self, table: &mut [Key; TABLE], content: &[u8], key: Key) -> bool {
        let sum = |sum: u32, byte: &u8| (sum ^ u32::from(*byte)).wrapping_mul(0x0100_0193);
        let mut place = content.iter().fold(0x811c_9dc5, sum) as usize % TABLE;
        while table[place].0 != 0 {
            if self.is_same(table[place], content) {
                return true;
            }
            place = (place + 1) % TABLE;
        }
        table[place] = key;
        false
    }

    /// The place of a key that the reader stands behind.
    #[inline(always)]
    fn passed(&self, key: &[u8]) -> Key {
        ((self.at - key.len()) as u16, key.len() as u16)
    }

    #[inline(always)]
    fn is_same(&self, held: Key, key: &[u8]) -> bool {
        usize::from(held.1) == key.len() && &self.bytes[usize::from(held.0)..][..key.len()] == key
    }
}
