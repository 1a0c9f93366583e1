//! Starts that are not fresh: states in shape, with a client that goes on
//! from there, and states out of shape in a way that is asked for.

use crate::client::{Client, Phase, Request, Step, STREAMS};
use crate::cuts::hex;
use crate::random::Random;
use crate::sizes::{FRAME_HEAD, LONGEST_COMMAND, LONGEST_PAYLOAD, MOST_PENDING, PARTS, SLOTS};

#[derive(Clone)]
pub struct Slot {
    pub id: u16,
    pub phase: char,
    pub data: bool,
    pub length: u64,
}

const FREE: Slot = Slot {
    id: 0,
    phase: 'f',
    data: false,
    length: 0,
};

#[derive(Clone)]
pub struct Start {
    pub dead: u8,
    pub pending: u64,
    pub slots: [Slot; SLOTS],
    pub open: Vec<u8>,
    pub count: u8,
}

/// Where a slot's part of the work area starts.
fn part(seat: usize) -> usize {
    PARTS + seat * LONGEST_COMMAND
}

fn poke(place: usize, bytes: &[u8]) -> String {
    format!("poke {place} {}", hex(bytes))
}

impl Start {
    fn fresh() -> Start {
        Start {
            dead: 0,
            pending: 0,
            slots: [FREE; SLOTS],
            open: Vec::new(),
            count: 0,
        }
    }

    /// The count that belongs to the slots.
    fn right_count(&self) -> u8 {
        let used = self.slots.iter().filter(|slot| slot.phase != 'f');
        used.count() as u8
    }

    pub fn line(&self) -> String {
        let slots = self.slots.iter().map(|slot| {
            let data = u8::from(slot.data);
            format!("{}:{}:{data}:{}", slot.id, slot.phase, slot.length)
        });
        let slots: Vec<String> = slots.collect();
        let open: Vec<String> = self.open.iter().map(u8::to_string).collect();
        let open = if open.is_empty() {
            "-".to_string()
        } else {
            open.join(",")
        };
        format!(
            "set {} {} {} {open} {}",
            self.dead,
            self.pending,
            slots.join(" "),
            self.count
        )
    }

    /// A slot for a fault in it.
    fn any_slot(&mut self, random: &mut Random) -> &mut Slot {
        &mut self.slots[random.below(SLOTS)]
    }

    /// An odd id that no slot has.
    fn idle_id(&self, random: &mut Random) -> u16 {
        loop {
            let id = random.next() as u16 | 1;
            if self.slots.iter().all(|slot| slot.id != id) {
                return id;
            }
        }
    }
}

/// A state in shape, the pokes that belong to it, and a client to whom the
/// receiver now listens.
pub struct Seated {
    pub start: Start,
    pub client: Client,
    pub pokes: Vec<String>,
}

pub fn seated(random: &mut Random) -> Seated {
    let mut seated = Seated {
        start: Start::fresh(),
        client: Client::default(),
        pokes: Vec::new(),
    };
    let full = random.pick(&[0, 30, 60, 100]);
    for seat in 0..SLOTS {
        if random.percent(full) {
            seated.sit(seat, random);
        }
    }
    for stream in STREAMS {
        if random.percent(40) {
            seated.start.open.push(stream);
            seated.client.open.insert(stream);
        }
    }
    match random.below(20) {
        0 => seated.in_mid_header(random),
        1 => seated.before_last_byte(random),
        2..=10 => seated.in_mid_frame(random),
        _ => {}
    }
    if random.percent(8) {
        seated.start.dead = random.between(11, 29) as u8;
    }
    seated.start.count = seated.start.right_count();
    seated
}

impl Seated {
    /// Puts a request into a slot. Of one that is collecting, what it has
    /// sent stands in the slot's part.
    fn sit(&mut self, seat: usize, random: &mut Random) {
        let (phase, letter) = random.pick(&[
            (Phase::Collecting, 'c'),
            (Phase::Waiting, 'w'),
            (Phase::Running, 'r'),
            (Phase::Draining, 'd'),
        ]);
        let mut drawn = Client::default();
        drawn.begin(random);
        let command = drawn.requests.remove(0).command;
        let collecting = phase == Phase::Collecting;
        let sent = random.between(0, command.len());
        if collecting {
            self.pokes.push(poke(part(seat), &command[..sent]));
        }
        let request = Request {
            id: self.client.idle_id(random),
            phase,
            data: matches!(phase, Phase::Waiting | Phase::Draining) || random.percent(50),
            command,
            sent,
            frames: random.between(1, 3),
        };
        self.start.slots[seat] = Slot {
            id: request.id,
            phase: letter,
            data: request.data,
            length: if collecting { sent as u64 } else { 0 },
        };
        self.client.requests.push(request);
    }

    /// The client's next frame has come in part.
    fn in_mid_frame(&mut self, random: &mut Random) {
        let (bytes, record) = self.client.next_frame(random, |_| true);
        let last = bytes.len() - 1;
        let pending = match random.below(4) {
            0 => random.pick(&[1, 2, 3, 7, 8, 9]).min(last),
            1 => last,
            _ => random.between(1, last),
        };
        self.split(bytes, pending, record);
    }

    /// A header that claims too much has come in part, which is in shape.
    fn in_mid_header(&mut self, random: &mut Random) {
        let (mut bytes, _) = self.client.next_frame(random, |_| true);
        bytes[2] = random.pick(&[1, 1, 2, 0x10, 0xff]);
        let pending = random.between(3, FRAME_HEAD - 1);
        self.split(bytes, pending, 0);
    }

    /// Only the last byte of a longest frame is still to come, or a few bytes. Of
    /// its payload, what has come is what stands in the work area.
    fn before_last_byte(&mut self, random: &mut Random) {
        let phase = random.pick(&[Phase::Waiting, Phase::Draining]);
        let waiting = self.client.some(random, Some(Phase::Waiting));
        if let Some(place) = self.client.some(random, Some(phase)).or(waiting) {
            let last = random.percent(50);
            self.client.send_data(place, LONGEST_PAYLOAD, last, random);
            if let Some(Step::Frame { bytes, record }) = self.client.steps.pop() {
                let pending = bytes.len() - random.pick(&[1, 1, 1, 2, 9]);
                self.pokes.push(poke(0, &bytes[..FRAME_HEAD]));
                self.start.pending = pending as u64;
                let bytes = bytes[pending..].to_vec();
                self.client.steps.push(Step::Frame { bytes, record });
            }
        }
    }

    /// The first bytes of a frame are pending, the others are a step.
    fn split(&mut self, bytes: Vec<u8>, pending: usize, record: usize) {
        self.pokes.push(poke(0, &bytes[..pending]));
        self.start.pending = pending as u64;
        let bytes = bytes[pending..].to_vec();
        self.client.steps.push(Step::Frame { bytes, record });
    }
}

/// The ways to be out of shape.
pub const WAYS: usize = 16;

/// Puts a state out of shape, at times with a poke that belongs to it. The count is
/// then that of the slots, so that it is no other way.
pub fn break_shape(start: &mut Start, way: usize, random: &mut Random) -> Option<String> {
    let poke = break_one(start, way, random);
    start.count = start.right_count();
    poke
}

/// The count is one too high or one too low, which of 0 is 255; now and then it is
/// another that is wrong.
pub fn break_count(start: &mut Start, random: &mut Random) {
    let by = match random.below(10) {
        0..=3 => 1,
        4..=7 => 255,
        _ => random.between(2, 254) as u8,
    };
    start.count = start.right_count().wrapping_add(by);
}

fn break_one(start: &mut Start, way: usize, random: &mut Random) -> Option<String> {
    let (above, longest) = (MOST_PENDING as u64 + 1, LONGEST_COMMAND as u64);
    match way {
        0 => start.pending = random.pick(&[above, above, above + 1, above + 2, 1 << 16, 0xff_ffff]),
        1 => start.dead = random.between(1, 10) as u8,
        2 => start.dead = random.between(30, 255) as u8,
        3 => {
            let length = random.pick(&[longest + 1, longest + 2, 40_000, 65_535]);
            let data = random.percent(50);
            used(start, 'c', data, length, random);
        }
        4 => {
            used_in_shape(start, random);
            let slot = start.slots.iter_mut().find(|slot| slot.phase != 'f');
            slot.expect("one is used").id = random.pick(&[0, 2, 0x0100, 0xfffe]);
        }
        5 => double(start, random),
        6 => *start.any_slot(random) = free(random.pick(&[1, 2, 0xffff]), false, 0),
        7 => *start.any_slot(random) = free(0, true, 0),
        8 => *start.any_slot(random) = free(0, false, random.pick(&[1, longest])),
        9 => used(start, 'w', true, random.pick(&[1, longest]), random),
        10 => {
            let data = random.percent(50);
            used(start, 'r', data, random.pick(&[1, longest]), random);
        }
        11 => used(start, 'w', false, 0, random),
        12 => used(start, 'd', true, random.pick(&[1, longest]), random),
        13 => used(start, 'd', false, 0, random),
        14 => return Some(held_above(start, random)),
        _ => return Some(pending_past(start, random)),
    }
    None
}

fn free(id: u16, data: bool, length: u64) -> Slot {
    Slot {
        id,
        phase: 'f',
        data,
        length,
    }
}

/// A used slot in any place, with an id of its own.
fn used(start: &mut Start, phase: char, data: bool, length: u64, random: &mut Random) {
    let id = start.idle_id(random);
    *start.any_slot(random) = Slot {
        id,
        phase,
        data,
        length,
    };
}

/// The phases and data bits of slots that are in use, with a length of 0.
const IN_SHAPE: [(char, bool); 7] = [
    ('c', false),
    ('c', true),
    ('w', true),
    ('r', false),
    ('r', true),
    ('d', true),
    ('d', true),
];

fn used_in_shape(start: &mut Start, random: &mut Random) {
    let (phase, data) = random.pick(&IN_SHAPE);
    used(start, phase, data, 0, random);
}

/// Two used slots with one id.
fn double(start: &mut Start, random: &mut Random) {
    let id = start.idle_id(random);
    let first = random.below(SLOTS);
    let second = (first + random.between(1, SLOTS - 1)) % SLOTS;
    for seat in [first, second] {
        let (phase, data) = random.pick(&IN_SHAPE);
        start.slots[seat] = Slot {
            id,
            phase,
            data,
            length: 0,
        };
    }
}

/// A draining slot that is out of shape: without its data bit, with a length, with an
/// even id, or with the id of another slot.
pub fn break_drain(start: &mut Start, random: &mut Random) {
    let id = start.idle_id(random);
    let mut slot = Slot {
        id,
        phase: 'd',
        data: true,
        length: 0,
    };
    let seat = random.below(SLOTS);
    match random.below(4) {
        0 => slot.data = false,
        1 => slot.length = random.pick(&[1, LONGEST_COMMAND as u64]),
        2 => slot.id = random.pick(&[0, 2, 0x0100, 0xfffe]),
        _ => {
            let (phase, data) = random.pick(&IN_SHAPE);
            let other = (seat + random.between(1, SLOTS - 1)) % SLOTS;
            start.slots[other] = Slot {
                id,
                phase,
                data,
                length: 0,
            };
        }
    }
    start.slots[seat] = slot;
    start.count = start.right_count();
}

/// A header that claims `length` bytes of payload.
fn header(length: u32) -> String {
    let mut bytes = length.to_le_bytes()[..3].to_vec();
    bytes.extend([1, 0, 1, 1, 0x11]);
    poke(0, &bytes)
}

fn held_above(start: &mut Start, random: &mut Random) -> String {
    let most = MOST_PENDING as u64;
    start.pending = random.pick(&[8, 9, 100, most - 1, most]);
    let over = LONGEST_PAYLOAD as u32 + 1;
    header(random.pick(&[over, over, over + 1, 2 * over, 0xff_ffff]))
}

fn pending_past(start: &mut Start, random: &mut Random) -> String {
    let length = random.pick(&[0, 1, 100, LONGEST_PAYLOAD - 1]);
    let pending = FRAME_HEAD + length + random.pick(&[0, 1, 200]);
    start.pending = pending.min(MOST_PENDING) as u64;
    header(length as u32)
}

/// The poke after which a state with a held length that broke the rule is
/// in shape.
pub fn heal() -> String {
    header(LONGEST_PAYLOAD as u32)
}
