//! Requests to be sent: good ones of every shape of frames, and ones with one
//! or several reasons for 50 to 54.

use crate::cuts::hex;
use crate::faults;
use crate::item::{self, put_head, Item, Writer, BYTES};
use crate::random::Random;
use crate::sizes::{LONGEST_COMMAND, LONGEST_PAYLOAD, LONGEST_SENT};

/// The bytes of a command besides its name, its pairs and their two heads: the
/// map's own head, and the keys `name` and `args`.
const AROUND: usize = 11;
/// The largest output that these lines ask for.
const LARGEST_OUTPUT: usize = 100_000;
/// The largest size, as the lines have it.
const LARGEST_SIZE: u64 = LONGEST_SENT as u64;

/// A line `send`, word by word.
pub struct Sending {
    pub output: usize,
    pub name: Vec<u8>,
    pub count: u64,
    pub pairs: Vec<u8>,
    pub request: u16,
    pub stream: u8,
    pub begin: bool,
    pub end: bool,
    pub size: u64,
    pub data: Option<Vec<u8>>,
    /// Whether a head in the pairs is wider than it need be.
    pub wide: bool,
    /// The reason for 52 that was put in; empty if there is none.
    pub fault: &'static str,
}

/// The reasons for 52 that are put in.
pub const FAULTS: [&str; 13] = [
    "a name of no bytes",
    "a name of 65 bytes",
    "a longer name",
    "a pair too few for the count",
    "a count of 2^64-1",
    "another count that is too large",
    "a pair more than the count",
    "bytes left over",
    "a key twice",
    "a key twice, in heads of two widths",
    "a key that is no byte string",
    "a value outside the subset",
    "a value of seven levels",
];

impl Sending {
    pub fn line(&self) -> String {
        let data = match &self.data {
            None => "none".to_string(),
            Some(data) => hex(data),
        };
        format!(
            "send {} {} {} {} {} {} {} {} {} {data}",
            self.output,
            hex(&self.name),
            self.count,
            hex(&self.pairs),
            self.request,
            self.stream,
            u8::from(self.begin),
            u8::from(self.end),
            self.size,
        )
    }

    /// The length of the command.
    pub fn length(&self) -> usize {
        let heads = head(self.name.len() as u64) + head(self.count);
        AROUND + heads + self.name.len() + self.pairs.len()
    }

    /// The length of the frames together, where the size is in its range.
    pub fn total(&self) -> usize {
        let size = self.size as usize;
        let frames = |length: usize| length + 8 * length.div_ceil(size).max(1);
        let data = self.data.as_ref().map_or(0, |data| frames(data.len()));
        frames(self.length()) + data
    }
}

/// The bytes of the shortest head of a number.
fn head(number: u64) -> usize {
    match number {
        0..=23 => 1,
        24..=0xff => 2,
        0x100..=0xffff => 3,
        0x1_0000..=0xffff_ffff => 5,
        _ => 9,
    }
}

/// The request of this seed and index.
pub fn sending(seed: u64, index: u64) -> Sending {
    let start = Random::new(seed ^ 0x5e4d).next() ^ Random::new(!index).next();
    let random = &mut Random::new(start);
    // One reason to refuse, none, or several, of which the first is told.
    let (one, several) = (random.below(100), random.percent(12));
    let mut chosen = |low, high| (low..high).contains(&one) || several && random.percent(40);
    let (ids, size, command) = (chosen(0, 6), chosen(6, 13), chosen(13, 36));
    let (length, output) = (chosen(36, 44), chosen(44, 53));
    let mut draft = Draft::good(random);
    if length {
        draft.lengthen(random);
    } else if random.percent(12) {
        draft.fill(LONGEST_COMMAND - random.pick(&[0, 0, 0, 1, 1, 30]), random);
    }
    if command || length && random.percent(25) {
        draft.spoil(random);
    }
    let mut sending = draft.into_sending(random);
    if output {
        sending.output = too_short(sending.total(), random);
    }
    if size {
        sending.size = other_size(random);
    }
    if ids {
        match random.below(3) {
            0 => sending.request &= !1,
            1 => sending.stream &= !1,
            _ => {
                sending.request &= !1;
                sending.stream &= !1;
            }
        }
    }
    sending
}

/// A command before it is written.
struct Draft {
    name: Vec<u8>,
    entries: Vec<(Item, Item)>,
    /// The number of pairs that is told, if it is not theirs.
    count: Option<u64>,
    left_over: Vec<u8>,
    /// How many heads in a hundred are wider than they need be.
    wide: usize,
    fault: &'static str,
}

impl Draft {
    fn good(random: &mut Random) -> Draft {
        let length = match random.below(4) {
            0 => random.pick(&[1, 23, 24, 63, 64]),
            _ => random.between(1, 12),
        };
        let mut draft = Draft {
            name: random.bytes(length),
            entries: Vec::new(),
            count: None,
            left_over: Vec::new(),
            wide: random.pick(&[0, 0, 10, 50]),
            fault: "",
        };
        let count = match random.below(40) {
            0 => random.between(256, 300),
            1 | 2 => random.pick(&[23, 24, 25, 60]),
            _ => random.pick(&[0, 1, 1, 2, 3, 4, 6]),
        };
        for number in 0..count {
            let entry = match count {
                0..7 => (long_key(number, random), value(random)),
                7..256 => (long_key(number, random), item::integer(random)),
                _ => (key(number), Item::Unsigned(number as u64 % 24)),
            };
            draft.entries.push(entry);
        }
        if count > 6 {
            draft.wide = 0;
        }
        while draft.length() > LONGEST_COMMAND - 40 {
            draft.entries.pop();
        }
        draft
    }

    /// The pairs, with so many heads in a hundred wider than they need be.
    fn pairs(&self, wide: usize, random: &mut Random) -> Vec<u8> {
        let mut writer = Writer {
            random,
            wide,
            out: Vec::new(),
        };
        for (key, value) in &self.entries {
            writer.item(key);
            writer.item(value);
        }
        writer.out
    }

    /// The pairs with every head as short as can be.
    fn shortest(&self) -> Vec<u8> {
        self.pairs(0, &mut Random::new(0))
    }

    /// The length of the command with these pairs.
    fn length(&self) -> usize {
        let heads = head(self.name.len() as u64) + head(self.entries.len() as u64);
        AROUND + heads + self.name.len() + self.shortest().len()
    }

    /// Adds an argument so that the command has this length, which is larger
    /// than it is by 40 or more.
    fn fill(&mut self, length: usize, random: &mut Random) {
        self.wide = 0;
        self.entries
            .push((item::bytes(b"filled"), Item::Raw(vec![])));
        let missing = length - self.length();
        let mut value = Vec::new();
        match missing {
            0..65_538 => put_head(&mut value, BYTES, 25, missing as u64 - 3),
            _ => put_head(&mut value, BYTES, 26, missing as u64 - 5),
        }
        value.resize(missing, random.byte());
        let last = self.entries.len() - 1;
        self.entries[last].1 = Item::Raw(value);
        random.shuffle(&mut self.entries);
    }

    /// A reason for 53.
    fn lengthen(&mut self, random: &mut Random) {
        let length = match random.below(20) {
            0 | 1 => random.between(10_000, 100_000),
            2..=4 => random.between(LONGEST_COMMAND + 2, 5000),
            _ => LONGEST_COMMAND + 1,
        };
        self.fill(length, random);
    }

    /// A reason for 52.
    fn spoil(&mut self, random: &mut Random) {
        let fault = random.below(FAULTS.len());
        self.fault = FAULTS[fault];
        if self.entries.is_empty() && (6..=9).contains(&fault) {
            self.entries.push((item::bytes(b"k"), value(random)));
        }
        let count = self.entries.len() as u64;
        match fault {
            0 => self.name.clear(),
            1 => self.name.resize(65, b'n'),
            2 => {
                let length = random.pick(&[66, 128, 255, 256, 300]);
                self.name.resize(length, b'n');
            }
            3 => self.count = Some(count + 1),
            4 => self.count = Some(u64::MAX),
            5 => {
                let more = random.pick(&[2, 24, 256, 65_536, 1 << 32, 1 << 63, u64::MAX - 1000]);
                self.count = Some(count + more);
            }
            6 => self.count = Some(count - 1),
            7 => {
                let length = random.between(1, 4);
                self.left_over = random.bytes(length);
            }
            8 | 9 => self.double(fault == 9, random),
            10 => self.add((faults::other_plain(random), item::plain(random)), random),
            11 => {
                let value = Item::Raw(faults::no_item(random));
                self.add((item::bytes(b"fault"), value), random);
            }
            _ => {
                let value = item::nested(random, 7);
                self.add((item::bytes(b"fault"), value), random);
            }
        }
    }

    fn add(&mut self, entry: (Item, Item), random: &mut Random) {
        let place = random.below(self.entries.len() + 1);
        self.entries.insert(place, entry);
    }

    /// Adds a key that is there, its head in another width if that is asked for.
    fn double(&mut self, widened: bool, random: &mut Random) {
        let place = random.below(self.entries.len());
        let mut key = self.entries[place].0.clone();
        if let (Item::Bytes(content), true) = (&key, widened) {
            let mut raw = Vec::new();
            let info = random.pick(&[25, 26, 27]);
            put_head(&mut raw, BYTES, info, content.len() as u64);
            raw.extend(content);
            key = Item::Raw(raw);
            self.wide = 0;
        }
        let value = value(random);
        self.add((key, value), random);
    }

    /// A request with this command, all else good, and output enough.
    fn into_sending(self, random: &mut Random) -> Sending {
        let mut pairs = self.pairs(self.wide, random);
        let wide = pairs.len() > self.shortest().len();
        pairs.extend(self.left_over);
        let any = random.next() as u16;
        let request = random.pick(&[0x0001, 0x0003, 0x00ff, 0x0101, 0x7fff, 0xffff, any | 1]);
        let mut sending = Sending {
            output: 0,
            name: self.name,
            count: self.count.unwrap_or(self.entries.len() as u64),
            pairs,
            request,
            stream: random.byte() | 1,
            begin: random.percent(50),
            end: random.percent(50),
            size: 0,
            data: None,
            wide,
            fault: self.fault,
        };
        sending.size = size(sending.length(), random) as u64;
        sending.data = data(sending.size as usize, random);
        sending.output = enough(sending.total(), random);
        sending
    }
}

/// A key of its own for each number.
fn key(number: usize) -> Item {
    Item::Bytes(match number {
        0..=255 => vec![number as u8],
        _ => (number as u16).to_be_bytes().to_vec(),
    })
}

/// The same, at times longer.
fn long_key(number: usize, random: &mut Random) -> Item {
    match key(number) {
        Item::Bytes(mut content) if random.percent(10) => {
            content.resize(random.pick(&[3, 23, 24, 60]), b'k');
            Item::Bytes(content)
        }
        key => key,
    }
}

fn value(random: &mut Random) -> Item {
    match random.below(10) {
        0..=3 => item::integer(random),
        4 => item::nested(random, 6),
        5 => {
            let length = random.pick(&[0, 1, 23, 24, 255, 256, 300]);
            Item::Bytes(random.bytes(length))
        }
        _ => item::value(random, 4),
    }
}

/// A payload size. Often the command fills its last frame, or just does not.
fn size(length: usize, random: &mut Random) -> usize {
    let size = match random.below(12) {
        0 => 1,
        1 => random.between(2, 7),
        2..=4 => LONGEST_SENT,
        5 => random.pick(&[255, 256, LONGEST_SENT - 1]),
        6 | 7 => {
            let parts = random.between(1, 6);
            (parts..)
                .find(|parts| length % parts == 0)
                .map_or(length, |parts| length / parts)
        }
        8 => length.saturating_sub(1),
        9 => length + 1,
        10 => random.between(8, 100),
        _ => random.between(1, LONGEST_SENT),
    };
    size.clamp(1, LONGEST_SENT)
}

/// A size outside the range, often by one. At times the receiver would take it.
fn other_size(random: &mut Random) -> u64 {
    let over = LARGEST_SIZE + 1;
    match random.below(10) {
        0 | 1 => 0,
        2 | 3 => over,
        4 => over + 1,
        5 => LONGEST_PAYLOAD as u64,
        6 => 1 << 16,
        _ => random.pick(&[1 << 32, 1 << 63, u64::MAX]),
    }
}

/// Data of a few frames, at times of many.
fn data(size: usize, random: &mut Random) -> Option<Vec<u8>> {
    let frames = random.between(1, 3);
    let length = match random.below(100) {
        0..=34 => return None,
        35..=49 => 0,
        50..=62 => frames * size,
        63..=70 => frames * size + 1,
        71..=78 => frames * size - 1,
        79..=88 => random.between(1, size),
        89..=98 => random.below(3 * size + 1),
        // In frames of 1 byte more than a line has output for.
        _ => random.pick(&[40, 40, 40, 300, 12_000]),
    };
    Some(random.bytes(length))
}

fn enough(total: usize, random: &mut Random) -> usize {
    let output = match random.below(10) {
        0..=4 => total,
        5 => total + 1,
        6..=8 => total + random.between(2, 40),
        _ => random.pick(&[2 * total, LARGEST_OUTPUT]),
    };
    output.min(LARGEST_OUTPUT)
}

fn too_short(total: usize, random: &mut Random) -> usize {
    let output = match random.below(10) {
        0..=4 => total - 1,
        5 => total - 8,
        6 | 7 => random.pick(&[0, 0, 1, 7, 8, 9]),
        _ => random.below(total),
    };
    output.min(LARGEST_OUTPUT)
}
