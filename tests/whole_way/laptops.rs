//! Several laptops on one line, each on a stream of its own: their messages as the
//! archive writes them, and their frames in turn.

use crate::tally::Tally;
use crate::wish::{Wish, Written};
use generate::Random;
use hgrpc::{send, Request, FRAME_HEAD, SEND_SIZE_LONGEST};
use std::collections::{BTreeSet, VecDeque};

/// What the laptops put on the line.
pub struct Line {
    pub bytes: Vec<u8>,
    /// The messages in the order in which their commands become whole.
    pub due: VecDeque<Due>,
    /// The place of the last byte of each `set`: its coil, or true or false.
    pub set_ends: Vec<usize>,
}

/// What is to come of a message: its request's id, what is asked for, and
/// whether that is written loosely.
pub struct Due {
    pub id: u16,
    pub wish: Wish,
    pub loose: bool,
}

/// A message under way: the frames that are still to come.
struct Message {
    due: Option<Due>,
    frames: VecDeque<Vec<u8>>,
}

struct Laptop {
    stream: u8,
    open: bool,
    /// How many messages are still to come.
    left: usize,
    message: Option<Message>,
}

/// Whether a command is whole with this frame.
fn completes(frame: &[u8]) -> bool {
    frame[7] >> 4 == 1 && frame[7] & 0x04 == 0
}

fn frames(mut bytes: &[u8]) -> VecDeque<Vec<u8>> {
    let mut frames = VecDeque::new();
    while let [low, middle, high, ..] = *bytes {
        let payload = u32::from_le_bytes([low, middle, high, 0]) as usize;
        let (frame, rest) = bytes.split_at(FRAME_HEAD + payload);
        frames.push_back(frame.to_vec());
        bytes = rest;
    }
    frames
}

/// An odd number that is not in use.
fn another(used: &mut BTreeSet<u16>, most: u16, random: &mut Random) -> u16 {
    loop {
        let any = random.next() as u16;
        let id = random.pick(&[any, any % 256]).min(most) | 1;
        if used.insert(id) {
            return id;
        }
    }
}

impl Laptop {
    /// Sends a message. Its frames are there, and none of them is on the line yet.
    fn send(&mut self, id: u16, random: &mut Random, tally: &mut Tally) -> Result<(), String> {
        let wish = Wish::any(random);
        let Written { pairs, loose } = wish.written(random);
        let any = random.between(1, SEND_SIZE_LONGEST);
        let length = random.below(60);
        let data = random.percent(25).then(|| random.bytes(length));
        let request = Request {
            id,
            stream: self.stream,
            begin: !self.open,
            end: random.percent(30),
            size: random.pick(&[1, 2, 7, 16, 40, any, SEND_SIZE_LONGEST]),
            name: wish.name(),
            pairs: &pairs.concat(),
            count: pairs.len() as u64,
            data: data.as_deref(),
        };
        let mut output = vec![0; request.most().ok_or("a message too long")?];
        let sent = send(&request, &mut output);
        if sent.number != 0 {
            return Err(format!("send answers {}", sent.number));
        }
        self.open = !request.end;
        tally.add_if(request.size == 1, "frames of one byte");
        tally.add_if(request.size == SEND_SIZE_LONGEST, "frames of 4,096 bytes");
        tally.add_if(data.is_some(), "data behind the command");
        tally.add_if(id > 255, "a request id above 255");
        tally.add_if(loose, "a command written loosely");
        tally.add_if(!loose, "a command written in the shortest heads");
        self.left -= 1;
        self.message = Some(Message {
            due: Some(Due { id, wish, loose }),
            frames: frames(&output[..sent.written]),
        });
        Ok(())
    }
}

/// As many laptops as there may be, each with some messages.
fn laptops(random: &mut Random) -> Vec<Laptop> {
    let mut streams = BTreeSet::new();
    let count = random.between(2, 4);
    let laptop = |_| Laptop {
        stream: another(&mut streams, 255, random) as u8,
        open: false,
        left: random.between(2, 5),
        message: None,
    };
    (0..count).map(laptop).collect()
}

/// Frames of one laptop and another in turn, until all messages are sent. With four
/// laptops no more than four requests are under way.
pub fn line(random: &mut Random, tally: &mut Tally) -> Result<Line, String> {
    let mut laptops = laptops(random);
    tally.add_if(laptops.len() == 4, "four laptops");
    let mut line = Line {
        bytes: Vec::new(),
        due: VecDeque::new(),
        set_ends: Vec::new(),
    };
    let mut used = BTreeSet::new();
    while !laptops.is_empty() {
        let place = random.below(laptops.len());
        let others = laptops.iter().filter(|laptop| laptop.message.is_some());
        let others = others.count() - usize::from(laptops[place].message.is_some());
        let laptop = &mut laptops[place];
        if laptop.message.is_none() {
            let id = another(&mut used, u16::MAX, random);
            laptop.send(id, random, tally)?;
        }
        let message = laptop.message.as_mut().ok_or("no message")?;
        let frame = message.frames.pop_front().ok_or("a message of no frames")?;
        line.bytes.extend(&frame);
        if completes(&frame) {
            tally.add_if(others > 0, "a command whole while another is under way");
            let due = message.due.take().ok_or("a command whole twice")?;
            if matches!(due.wish, Wish::Set(..)) {
                line.set_ends.push(line.bytes.len() - 1);
            }
            line.due.push_back(due);
        }
        if message.frames.is_empty() {
            laptop.message = None;
            if laptop.left == 0 {
                laptops.remove(place);
            }
        }
    }
    Ok(line)
}
