//! Cuts the steps of a client into calls: inputs of any length, outputs of
//! any length, and looks at what the receiver then holds.

use crate::client::Step;
use crate::random::Random;
use crate::sizes::{FRAME_HEAD, LARGEST_OUTPUT, LEAST_OUTPUT, LONGEST_COMMAND, PARTS, WORK};

/// Three longest frames and some more.
const LONGEST_INPUT: usize = 200_000;
/// A frame with more is cut at its edges in the style for these.
const LONG_FRAME: usize = 300;

/// The client's bytes joined.
#[derive(Default)]
struct Joined {
    bytes: Vec<u8>,
    /// Where each frame ends, and the length of its record.
    ends: Vec<(usize, usize)>,
    finishes: Vec<(usize, u16)>,
}

impl Joined {
    /// A finish comes before the frame that follows it is judged: between
    /// two frames, or, now and then, in the middle of the later one.
    fn new(steps: Vec<Step>, random: &mut Random) -> Joined {
        let mut joined = Joined::default();
        let mut waiting = Vec::new();
        for step in steps {
            match step {
                Step::Finish(id) => waiting.push(id),
                Step::Frame { bytes, record } => {
                    let start = joined.bytes.len();
                    let later = if random.percent(30) { bytes.len() } else { 1 };
                    let place = start + random.below(later);
                    joined
                        .finishes
                        .extend(waiting.drain(..).map(|id| (place, id)));
                    joined.bytes.extend(bytes);
                    joined.ends.push((joined.bytes.len(), record));
                }
            }
        }
        let end = joined.bytes.len();
        joined
            .finishes
            .extend(waiting.into_iter().map(|id| (end, id)));
        joined
    }

    /// How many of these bytes a feed takes, if no frame is refused.
    fn taken(&self, from: usize, to: usize, output: usize) -> usize {
        if output < LEAST_OUTPUT {
            return 0;
        }
        let mut left = output;
        for (end, record) in &self.ends {
            if *end > from && *end <= to {
                if left < LEAST_OUTPUT {
                    return end - 1 - from;
                }
                left -= record;
            }
        }
        to - from
    }

    /// The length of the frame that ends here.
    fn bytes_of(&self, end: usize) -> usize {
        let earlier = self.ends.iter().map(|(end, _)| *end);
        end - earlier.take_while(|other| *other < end).last().unwrap_or(0)
    }

    fn next_end(&self, from: usize) -> usize {
        let mut later = self.ends.iter().map(|(end, _)| *end);
        later.find(|end| *end > from).unwrap_or(self.bytes.len())
    }

    /// The length together of the records of the next frames.
    fn next_records(&self, from: usize, frames: usize) -> usize {
        let later = self.ends.iter().filter(|(end, _)| *end > from);
        later.take(frames).map(|(_, record)| record).sum()
    }
}

#[derive(Clone, Copy)]
enum Cut {
    Single,
    Frame,
    /// All of a frame but its last byte, then that byte.
    BeforeLast,
    /// The first bytes of a frame and its last ones singly, what is between at once.
    Edges,
    /// All there is.
    Whole,
    Any,
}

#[derive(Clone, Copy)]
enum Output {
    Least,
    LittleMore,
    /// Just enough after some frames, or one byte too little.
    Exact,
    Large,
}

/// How a session is cut for a while.
struct Style {
    cut: Cut,
    output: Output,
    /// How many calls in a hundred are followed by a look.
    looks: usize,
    /// How many more calls are made in this style.
    calls: usize,
}

impl Style {
    fn new(random: &mut Random) -> Style {
        Style {
            cut: random.pick(&[
                Cut::Single,
                Cut::Frame,
                Cut::BeforeLast,
                Cut::Edges,
                Cut::Whole,
                Cut::Any,
                Cut::Any,
            ]),
            output: random.pick(&[
                Output::Least,
                Output::LittleMore,
                Output::Exact,
                Output::Large,
            ]),
            looks: random.pick(&[0, 10, 10, 50]),
            calls: random.between(5, 60),
        }
    }

    /// Where an input that starts at `from` ends; `limit` is above `from`.
    fn input_end(&self, joined: &Joined, from: usize, limit: usize, random: &mut Random) -> usize {
        let end = joined.next_end(from);
        let to = match self.cut {
            Cut::Single => from + 1,
            Cut::Frame => end,
            Cut::BeforeLast => (end - 1).max(from + 1),
            Cut::Edges => match end - from {
                left @ 3.. if joined.bytes_of(end) > LONG_FRAME => {
                    let at = joined.bytes_of(end) - left;
                    if at <= FRAME_HEAD {
                        from + 1
                    } else {
                        end - 2
                    }
                }
                _ => from + 1,
            },
            Cut::Whole => limit,
            Cut::Any => from + random.between(1, random_most(from, end)),
        };
        to.min(limit).min(from + LONGEST_INPUT)
    }

    fn output(&self, joined: &Joined, from: usize, random: &mut Random) -> usize {
        if random.percent(3) {
            return random.pick(&[0, 1, 2000, LEAST_OUTPUT - 1, LEAST_OUTPUT - 1]);
        }
        match self.output {
            Output::Least => LEAST_OUTPUT,
            Output::LittleMore => LEAST_OUTPUT + random.between(1, 80),
            Output::Exact => {
                let frames = random.between(1, 4);
                let records = joined.next_records(from, frames);
                (records + LEAST_OUTPUT - random.below(2)).clamp(LEAST_OUTPUT, LARGEST_OUTPUT)
            }
            Output::Large => {
                let two = 2 * LEAST_OUTPUT;
                random.pick(&[two - 1, two, two + 9, two + LEAST_OUTPUT, LARGEST_OUTPUT])
            }
        }
    }
}

/// The longest of random inputs: somewhat more than a frame.
fn random_most(from: usize, end: usize) -> usize {
    (end - from) * 3 / 2 + 10
}

/// Adds the lines of these steps.
pub fn cut(steps: Vec<Step>, random: &mut Random, lines: &mut Vec<String>) {
    let style = Style::new(random);
    cut_first(style, steps, random, lines);
}

/// The same, first in large inputs and outputs.
pub fn cut_large(steps: Vec<Step>, random: &mut Random, lines: &mut Vec<String>) {
    let style = Style {
        cut: Cut::Whole,
        output: Output::Large,
        looks: 50,
        calls: 10,
    };
    cut_first(style, steps, random, lines);
}

fn cut_first(mut style: Style, steps: Vec<Step>, random: &mut Random, lines: &mut Vec<String>) {
    let joined = Joined::new(steps, random);
    let mut finishes = joined.finishes.iter().peekable();
    let mut from = 0;
    loop {
        while let Some((_, id)) = finishes.next_if(|(place, _)| *place <= from) {
            lines.push(format!("finish {id}"));
            look(&style, random, lines);
        }
        if from == joined.bytes.len() {
            break;
        }
        if style.calls == 0 {
            style = Style::new(random);
        }
        style.calls -= 1;
        let next = finishes.peek().map(|(place, _)| *place);
        let limit = next.unwrap_or(joined.bytes.len());
        from = one_feed(&joined, &style, from, limit, random, lines);
        look(&style, random, lines);
    }
}

/// Adds a feed, and tells where the next one starts. What it leaves untaken
/// is mostly offered again.
fn one_feed(
    joined: &Joined,
    style: &Style,
    from: usize,
    limit: usize,
    random: &mut Random,
    lines: &mut Vec<String>,
) -> usize {
    let output = style.output(joined, from, random);
    if random.percent(3) {
        lines.push(feed(output, &[]));
        return from;
    }
    let to = style.input_end(joined, from, limit, random);
    lines.push(feed(output, &joined.bytes[from..to]));
    if random.percent(2) {
        to
    } else {
        from + joined.taken(from, to, output)
    }
}

fn look(style: &Style, random: &mut Random, lines: &mut Vec<String>) {
    if !random.percent(style.looks) {
        return;
    }
    let line = match random.below(12) {
        0..=3 => "state".to_string(),
        4..=5 => "tail".to_string(),
        6..=8 => "worksum".to_string(),
        9 => "active".to_string(),
        10 => row(random),
        _ => {
            let last = WORK - LONGEST_COMMAND;
            let from = random.pick(&[0, PARTS - 10, PARTS, PARTS + 46, last - 4, WORK - 8]);
            format!("work {from} {}", from + random.below(9))
        }
    };
    lines.push(line);
}

/// A row of as many entries as there are slots, or of about as many, or of any number.
pub fn row(random: &mut Random) -> String {
    let any = random.between(0, 40);
    let entries = random.pick(&[8, 8, 8, 8, 7, 7, 9, 9, 0, 1, any]);
    format!("row {entries}")
}

/// The bytes of rows, in turn: every length to 30, and some longer ones.
pub const ROW_LENGTHS: usize = 34;
pub fn row_length(turn: usize) -> usize {
    match turn % ROW_LENGTHS {
        31 => 48,
        32 => 100,
        33 => 3000,
        length => length,
    }
}

pub fn feed(output: usize, input: &[u8]) -> String {
    format!("feed {output} {}", hex(input))
}

pub fn hex(bytes: &[u8]) -> String {
    if bytes.is_empty() {
        return "-".to_string();
    }
    let digit = |half: u8| char::from(b"0123456789abcdef"[usize::from(half)]);
    let halves = bytes.iter().flat_map(|byte| [byte >> 4, byte & 15]);
    halves.map(digit).collect()
}
