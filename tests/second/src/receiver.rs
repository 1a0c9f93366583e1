//! The receiver, twice.
//!
//! `Receiver` takes the calls. It has no slots and no stream table: it keeps
//! the list of the frames and of the finishes accepted, and each rule is a
//! question about that list. A start that is not fresh becomes a list that
//! leads to it.
//!
//! `Uncut` is the plain receiver of the uncut reading. It has no calls with
//! inputs and outputs, takes the bytes singly, and works on a state in place.

use crate::command;
use crate::frame::{
    claimed, Frame, COMMAND, COMMAND_BYTES, CONTINUATION, DATA, HEADER, LAST_DATA, MORE, MORE_DATA,
    NEW, PAYLOAD, RECORD, SETTINGS, WITH_DATA,
};
use crate::log;
use crate::state::{held_ways, plain_ways, Phase, Slot, State, FRAME_PLACES, SLOTS, WORK};
use std::collections::{BTreeMap, BTreeSet};
use std::mem::take;

#[derive(Clone, Debug, PartialEq, Eq)]
pub enum Event {
    /// An accepted frame.
    Frame(Frame),
    /// A finish of a running id.
    Finish(u16),
    /// A finish of an id that was waiting for data (E8).
    Drain(u16),
}

impl Event {
    /// Whether this is a step in the life of request `id`. A settings frame
    /// is none: its request id is not looked up.
    fn concerns(&self, id: u16) -> bool {
        match self {
            Event::Frame(frame) => frame.kind() != SETTINGS && frame.request() == id,
            Event::Finish(finished) | Event::Drain(finished) => *finished == id,
        }
    }

    /// The phase of a request after a step in its life. Each step but data
    /// settles it, whatever came before.
    fn phase_after(&self, before: Phase) -> Phase {
        match self {
            Event::Finish(_) => Phase::Free,
            Event::Drain(_) => Phase::Draining,
            Event::Frame(frame) if frame.kind() == DATA => match (frame.flags(), before) {
                (LAST_DATA, Phase::Draining) => Phase::Free,
                (LAST_DATA, _) => Phase::Running,
                _ => before,
            },
            Event::Frame(frame) if !frame.makes_whole() => Phase::Collecting,
            Event::Frame(frame) if frame.is_command(WITH_DATA) => Phase::Waiting,
            Event::Frame(_) => Phase::Running,
        }
    }

    fn frame(&self) -> Option<&Frame> {
        match self {
            Event::Frame(frame) => Some(frame),
            Event::Finish(_) | Event::Drain(_) => None,
        }
    }

    /// Whether this is the last data frame of request `id`.
    fn ends_data(&self, id: u16) -> bool {
        let data = self.frame().filter(|frame| frame.kind() == DATA);
        data.is_some_and(|frame| frame.request() == id && frame.flags() == LAST_DATA)
    }
}

#[derive(Default)]
struct History {
    events: Vec<Event>,
    /// The slot in which each active request sits. No rule asks for it: it
    /// orders the state and says where payloads go.
    seats: BTreeMap<u16, usize>,
}

impl History {
    /// A history after which the slots and streams are those of a state in
    /// shape. What a collecting request has sent stands in the work area. A
    /// whole command is asked for no more, so it is left out.
    fn leading_to(state: &State, work: &[u8]) -> History {
        let mut history = History::default();
        for (seat, slot) in state.slots.iter().enumerate() {
            if slot.phase != Phase::Free {
                history.seats.insert(slot.id, seat);
            }
            let data = if slot.data { WITH_DATA } else { 0 };
            let sent = held(work, part(seat), slot.length as usize);
            match slot.phase {
                Phase::Free => {}
                Phase::Collecting => {
                    history.lead(Frame::command(slot.id, NEW | MORE | data, &sent))
                }
                Phase::Waiting => history.lead(Frame::command(slot.id, NEW | data, &[])),
                Phase::Running => {
                    history.lead(Frame::command(slot.id, NEW | data, &[]));
                    if slot.data {
                        history.lead(Frame::last_data(slot.id));
                    }
                }
                Phase::Draining => {
                    history.lead(Frame::command(slot.id, NEW | data, &[]));
                    history.events.push(Event::Drain(slot.id));
                }
            }
        }
        for stream in &state.open {
            history.lead(Frame::opening(*stream));
        }
        history
    }

    fn lead(&mut self, frame: Frame) {
        self.events.push(Event::Frame(frame));
    }

    fn frames(&self) -> impl DoubleEndedIterator<Item = &Frame> {
        self.events.iter().filter_map(Event::frame)
    }

    fn news(&self) -> impl Iterator<Item = &Frame> {
        self.frames().filter(|frame| frame.is_command(NEW))
    }

    fn phase(&self, id: u16) -> Phase {
        let steps = self.events.iter().filter(|event| event.concerns(id));
        steps.fold(Phase::Free, |phase, event| event.phase_after(phase))
    }

    fn active(&self) -> BTreeSet<u16> {
        let mut active: BTreeSet<u16> = self.news().map(Frame::request).collect();
        active.retain(|id| self.phase(*id) != Phase::Free);
        active
    }

    /// New frames accepted minus finishes of running ids minus drains ended.
    fn count(&self) -> u8 {
        let is_finish = |event: &&Event| matches!(event, Event::Finish(_));
        let finishes = self.events.iter().filter(is_finish).count();
        (self.news().count() - finishes - self.drains_ended()) as u8
    }

    /// How many drains have the last data frame of their id behind them.
    fn drains_ended(&self) -> usize {
        let ended = |place: &usize| match &self.events[*place] {
            Event::Drain(id) => self.events[*place..].iter().any(|step| step.ends_data(*id)),
            _ => false,
        };
        (0..self.events.len()).filter(ended).count()
    }

    fn is_open(&self, stream: u8) -> bool {
        let mut latest_first = self.frames().rev();
        latest_first
            .find(|frame| frame.stream() == stream)
            .is_some_and(|frame| !frame.ends())
    }

    fn open(&self) -> BTreeSet<u8> {
        let mut open = BTreeSet::new();
        for frame in self.frames() {
            if frame.ends() {
                open.remove(&frame.stream());
            } else {
                open.insert(frame.stream());
            }
        }
        open
    }

    /// The command frames of an active request, from its new frame on.
    fn command_frames(&self, id: u16) -> impl Iterator<Item = &Frame> {
        let of_request = move |frame: &&Frame| frame.kind() == COMMAND && frame.request() == id;
        let is_new = |event: &Event| {
            let frame = event.frame().filter(of_request);
            frame.is_some_and(|frame| frame.is_command(NEW))
        };
        let first = self.events.iter().rposition(is_new);
        let steps = &self.events[first.unwrap_or(self.events.len())..];
        steps.iter().filter_map(Event::frame).filter(of_request)
    }

    fn data_bit(&self, id: u16) -> bool {
        let first = self.command_frames(id).next();
        first.is_some_and(|frame| frame.is_command(WITH_DATA))
    }

    /// The payloads that an active request has sent, joined.
    fn sent(&self, id: u16) -> Vec<u8> {
        self.command_frames(id)
            .flat_map(|frame| frame.payload().iter().copied())
            .collect()
    }

    /// What stands before this command frame's payload in its command.
    fn before(&self, frame: &Frame) -> Vec<u8> {
        if frame.is_command(NEW) {
            Vec::new()
        } else {
            self.sent(frame.request())
        }
    }

    /// The command as far as it has come with this frame.
    fn command(&self, frame: &Frame) -> Vec<u8> {
        let mut command = self.before(frame);
        command.extend(frame.payload());
        command
    }

    fn check_gives(&self, frame: &Frame, number: u32) -> bool {
        frame.makes_whole() && command::check(&self.command(frame)) == number
    }

    fn first_broken(&self, frame: &Frame) -> Option<u8> {
        let mut rules = RULES.iter();
        rules
            .find(|(_, broken)| broken(self, frame))
            .map(|(number, _)| *number)
    }

    /// The record of a frame that breaks no rule, before it is accepted.
    fn record(&self, frame: &Frame) -> Vec<u8> {
        if frame.makes_whole() {
            let command = self.command(frame);
            let data = u8::from(frame.is_command(WITH_DATA));
            let mark = u8::from(command::loose(&command));
            record(1, frame.request(), mark << 1 | data, &command)
        } else if frame.kind() == DATA && self.phase(frame.request()) != Phase::Draining {
            let last = u8::from(frame.flags() == LAST_DATA);
            record(2, frame.request(), last, frame.payload())
        } else {
            Vec::new()
        }
    }

    /// The slot of a request that is active, else the lowest free one.
    fn seat(&self, id: u16) -> usize {
        let taken = |seat: &usize| self.seats.values().any(|held| held == seat);
        let lowest_free = (0..SLOTS).find(|seat| !taken(seat));
        let seat = self.seats.get(&id).copied().or(lowest_free);
        seat.expect("rule 20 comes before any use of a seat")
    }

    fn accept(&mut self, frame: Frame) {
        let id = frame.request();
        if frame.is_command(NEW) {
            let seat = self.seat(id);
            self.seats.insert(id, seat);
        }
        self.add(id, Event::Frame(frame));
    }

    /// The number of a finish on a live channel.
    fn finish(&mut self, id: u16) -> u8 {
        let event = match self.phase(id) {
            Phase::Running => Event::Finish(id),
            Phase::Waiting => Event::Drain(id),
            _ => return 4,
        };
        self.add(id, event);
        0
    }

    /// An id that is then not active has no slot.
    fn add(&mut self, id: u16, event: Event) {
        self.events.push(event);
        if self.phase(id) == Phase::Free {
            self.seats.remove(&id);
        }
    }

    fn slots(&self) -> [Slot; SLOTS] {
        let mut slots = [Slot::FREE; SLOTS];
        for (id, seat) in &self.seats {
            let phase = self.phase(*id);
            let length = match phase {
                Phase::Collecting => self.sent(*id).len() as u64,
                _ => 0,
            };
            slots[*seat] = Slot {
                id: *id,
                phase,
                data: self.data_bit(*id),
                length,
            };
        }
        slots
    }
}

type Broken = fn(&History, &Frame) -> bool;

/// The frame rules behind 11. A rule may rely on those above it.
const RULES: [(u8, Broken); 18] = [
    (12, |_, frame| frame.request() % 2 == 0),
    (13, |_, frame| frame.stream() % 2 == 0),
    (14, |_, frame| frame.stream_flags() >= 0x08),
    (15, |_, frame| {
        ![COMMAND, DATA, SETTINGS].contains(&frame.kind())
    }),
    (16, |past, frame| {
        !past.is_open(frame.stream()) && !frame.begins()
    }),
    (17, |past, frame| {
        past.is_open(frame.stream()) && frame.begins()
    }),
    (18, |_, frame| match frame.kind() {
        COMMAND => frame.is_command(NEW) == frame.is_command(CONTINUATION),
        DATA => ![MORE_DATA, LAST_DATA].contains(&frame.flags()),
        _ => frame.flags() != 0x02,
    }),
    (19, |past, frame| {
        frame.is_command(NEW) && past.phase(frame.request()) != Phase::Free
    }),
    (20, |past, frame| {
        frame.is_command(NEW) && past.active().len() == SLOTS
    }),
    (21, |past, frame| {
        frame.is_command(CONTINUATION) && past.phase(frame.request()) != Phase::Collecting
    }),
    (22, |past, frame| {
        frame.is_command(CONTINUATION)
            && frame.is_command(WITH_DATA) != past.data_bit(frame.request())
    }),
    (23, |past, frame| {
        frame.kind() == COMMAND && past.command(frame).len() > COMMAND_BYTES
    }),
    (24, |past, frame| past.check_gives(frame, 24)),
    (25, |past, frame| past.check_gives(frame, 25)),
    (26, |past, frame| past.check_gives(frame, 26)),
    (27, |past, frame| {
        let phase = past.phase(frame.request());
        frame.kind() == DATA && phase != Phase::Waiting && phase != Phase::Draining
    }),
    (28, |_, frame| frame.kind() == SETTINGS && !frame.begins()),
    (29, |_, frame| {
        frame.kind() == SETTINGS && !frame.names_identity()
    }),
];

/// `third` is the body's third byte.
fn record(kind: u16, request: u16, third: u8, content: &[u8]) -> Vec<u8> {
    let body = [&request.to_le_bytes()[..], &[third], content].concat();
    let kind = kind.to_le_bytes();
    log::write(&[log::Record { kind, body: &body }])
}

/// The place in the work area where a slot's part starts.
fn part(seat: usize) -> usize {
    FRAME_PLACES + seat * COMMAND_BYTES
}

/// `count` bytes of the work area. Where it is too short for them every
/// feed answers 2, so that what stands for them is never read.
fn held(work: &[u8], from: usize, count: usize) -> Vec<u8> {
    let there = work.iter().skip(from).take(count).copied();
    let mut bytes: Vec<u8> = there.collect();
    bytes.resize(count, 0);
    bytes
}

#[derive(Clone, Copy, Debug, PartialEq, Eq)]
pub struct Fed {
    pub number: u8,
    pub taken: usize,
    pub written: usize,
}

impl Fed {
    fn nothing(number: u8) -> Fed {
        Fed {
            number,
            taken: 0,
            written: 0,
        }
    }
}

pub struct Receiver {
    work: Vec<u8>,
    /// The state as it was given, if its plain numbers are out of shape. It
    /// has no history then, and no call changes it.
    shapeless: Option<State>,
    dead: u8,
    /// What has come of the frame under way.
    under_way: Vec<u8>,
    history: History,
}

impl Receiver {
    pub fn start(state: State, work: Vec<u8>) -> Receiver {
        let mut receiver = Receiver {
            work,
            shapeless: None,
            dead: state.dead,
            under_way: Vec::new(),
            history: History::default(),
        };
        if plain_ways(&state).is_empty() {
            receiver.under_way = held(&receiver.work, 0, state.pending as usize);
            receiver.history = History::leading_to(&state, &receiver.work);
        } else {
            receiver.shapeless = Some(state);
        }
        receiver
    }

    pub fn state(&self) -> State {
        if let Some(state) = &self.shapeless {
            return state.clone();
        }
        State {
            dead: self.dead,
            pending: self.under_way.len() as u64,
            slots: self.history.slots(),
            open: self.history.open(),
            count: self.history.count(),
        }
    }

    pub fn work(&self) -> &[u8] {
        &self.work
    }

    /// What leads to the start, then what has been accepted since.
    pub fn history(&self) -> &[Event] {
        &self.history.events
    }

    /// The same work area in another state: a start of its own.
    pub fn set(&mut self, state: State) {
        *self = Receiver::start(state, take(&mut self.work));
    }

    /// Other bytes in the work area, where they fit: a start of its own too,
    /// since bytes of the history may lie there.
    pub fn poke(&mut self, place: usize, bytes: &[u8]) {
        self.work[place..place + bytes.len()].copy_from_slice(bytes);
        self.set(self.state());
    }

    pub fn feed(&mut self, input: &[u8], output: &mut [u8]) -> Fed {
        let checked = self.check(output.len());
        if checked != 0 {
            return Fed::nothing(checked);
        }
        let mut fed = Fed::nothing(0);
        for byte in input {
            if self.next_is_last() && output.len() - fed.written < RECORD {
                fed.number = 5;
                break;
            }
            fed.taken += 1;
            match self.take(*byte) {
                Ok(record) => {
                    output[fed.written..fed.written + record.len()].copy_from_slice(&record);
                    fed.written += record.len();
                }
                Err(number) => {
                    fed.number = number;
                    break;
                }
            }
        }
        fed
    }

    /// The checks before a feed: 2, 3, dead, 1.
    fn check(&self, output: usize) -> u8 {
        let state = self.state();
        if self.work.len() < WORK {
            2
        } else if !plain_ways(&state).is_empty() || !held_ways(&state, &self.work).is_empty() {
            3
        } else if self.dead != 0 {
            self.dead
        } else if output < RECORD {
            1
        } else {
            0
        }
    }

    /// Whether the byte that comes next is the last of its frame. The byte
    /// itself tells nothing: it stands behind the length.
    fn next_is_last(&self) -> bool {
        let count = self.under_way.len() + 1;
        count >= HEADER && count == HEADER + claimed(&self.under_way)
    }

    /// Takes one byte. The record that it completes, else no bytes; or the
    /// number with which its frame is refused.
    fn take(&mut self, byte: u8) -> Result<Vec<u8>, u8> {
        let last = self.next_is_last();
        self.work[self.under_way.len()] = byte;
        self.under_way.push(byte);
        if last {
            self.judge()
        } else if self.under_way.len() == HEADER && claimed(&self.under_way) > PAYLOAD {
            self.under_way.clear();
            self.dead = 11;
            Err(11)
        } else {
            Ok(Vec::new())
        }
    }

    fn judge(&mut self) -> Result<Vec<u8>, u8> {
        let frame = Frame::read(take(&mut self.under_way));
        let broken = self.history.first_broken(&frame);
        if frame.kind() == COMMAND && matches!(broken, None | Some(24..=26)) {
            self.put(&frame);
        }
        if let Some(number) = broken {
            self.dead = number;
            return Err(number);
        }
        let record = self.history.record(&frame);
        self.history.accept(frame);
        Ok(record)
    }

    /// Puts a command payload behind the earlier ones in the slot's part.
    fn put(&mut self, frame: &Frame) {
        let seat = self.history.seat(frame.request());
        let place = part(seat) + self.history.before(frame).len();
        let payload = frame.payload();
        self.work[place..place + payload.len()].copy_from_slice(payload);
    }

    /// The checks are the plain numbers of 3, dead, 4: there is no work area
    /// in which a held length could be.
    pub fn finish(&mut self, id: u16) -> u8 {
        if self.shapeless.is_some() {
            3
        } else if self.dead != 0 {
            self.dead
        } else {
            self.history.finish(id)
        }
    }
}

/// The plain receiver of the uncut reading.
pub struct Uncut {
    pub state: State,
    pub work: Vec<u8>,
    pub records: Vec<u8>,
}

impl Uncut {
    /// From a state and work area to which neither 2 nor 3 applies.
    pub fn start(state: State, work: Vec<u8>) -> Uncut {
        Uncut {
            state,
            work,
            records: Vec::new(),
        }
    }

    pub fn byte(&mut self, byte: u8) {
        if self.state.dead != 0 {
            return;
        }
        self.work[self.state.pending as usize] = byte;
        self.state.pending += 1;
        let pending = self.state.pending as usize;
        if pending < HEADER {
            return;
        }
        let length = claimed(&self.work);
        if pending == HEADER && length > PAYLOAD {
            self.state.dead = 11;
            self.state.pending = 0;
        } else if pending == HEADER + length {
            let frame = Frame::read(self.work[..pending].to_vec());
            self.state.dead = self.tried(&frame).err().unwrap_or(0);
            self.state.pending = 0;
        }
    }

    /// Tries 12 to 29 in their order and does what an accepted frame does.
    fn tried(&mut self, frame: &Frame) -> Result<(), u8> {
        let open = self.state.open.contains(&frame.stream());
        refuse_if(frame.request() & 1 == 0, 12)?;
        refuse_if(frame.stream() & 1 == 0, 13)?;
        refuse_if(frame.stream_flags() & 0xf8 != 0, 14)?;
        refuse_if(!matches!(frame.kind(), 1 | 2 | 9), 15)?;
        refuse_if(!open && !frame.begins(), 16)?;
        refuse_if(open && frame.begins(), 17)?;
        match frame.kind() {
            COMMAND => self.command(frame)?,
            DATA => self.data(frame)?,
            _ => {
                refuse_if(frame.flags() != 2, 18)?;
                refuse_if(!frame.begins(), 28)?;
                refuse_if(!frame.names_identity(), 29)?;
            }
        }
        if frame.ends() {
            self.state.open.remove(&frame.stream());
        } else {
            self.state.open.insert(frame.stream());
        }
        Ok(())
    }

    fn command(&mut self, frame: &Frame) -> Result<(), u8> {
        let seat = match frame.flags() & (NEW | CONTINUATION) {
            NEW => self.new_seat(frame)?,
            CONTINUATION => self.held_seat(frame)?,
            _ => return Err(18),
        };
        let before = self.state.slots[seat].length as usize;
        let length = before + frame.payload().len();
        refuse_if(length > COMMAND_BYTES, 23)?;
        let whole = frame.flags() & MORE == 0;
        let own = &mut self.work[part(seat)..][..COMMAND_BYTES];
        own[before..length].copy_from_slice(frame.payload());
        let data = frame.flags() & WITH_DATA != 0;
        if whole {
            let number = command::check(&own[..length]) as u8;
            refuse_if(number != 0, number)?;
            let mark = if command::loose(&own[..length]) { 2 } else { 0 };
            let third = u8::from(data) + mark;
            let whole_record = record(1, frame.request(), third, &own[..length]);
            self.records.extend(whole_record);
        }
        self.state.count += u8::from(frame.flags() & NEW != 0);
        self.state.slots[seat] = Slot {
            id: frame.request(),
            phase: match (whole, data) {
                (false, _) => Phase::Collecting,
                (true, true) => Phase::Waiting,
                (true, false) => Phase::Running,
            },
            data,
            length: if whole { 0 } else { length as u64 },
        };
        Ok(())
    }

    fn new_seat(&self, frame: &Frame) -> Result<usize, u8> {
        refuse_if(self.slot_of(frame.request()).is_some(), 19)?;
        let mut slots = self.state.slots.iter();
        slots.position(|slot| slot.phase == Phase::Free).ok_or(20)
    }

    fn held_seat(&self, frame: &Frame) -> Result<usize, u8> {
        let seat = self.slot_of(frame.request()).ok_or(21)?;
        let slot = self.state.slots[seat];
        refuse_if(slot.phase != Phase::Collecting, 21)?;
        refuse_if(slot.data != (frame.flags() & WITH_DATA != 0), 22)?;
        Ok(seat)
    }

    fn data(&mut self, frame: &Frame) -> Result<(), u8> {
        refuse_if(!matches!(frame.flags(), 1 | 2), 18)?;
        let seat = self.slot_of(frame.request()).ok_or(27)?;
        let slot = &mut self.state.slots[seat];
        let drains = slot.phase == Phase::Draining;
        refuse_if(!drains && slot.phase != Phase::Waiting, 27)?;
        let last = frame.flags() == 2;
        match (last, drains) {
            (false, _) => {}
            (true, false) => slot.phase = Phase::Running,
            (true, true) => self.free(seat),
        }
        if !drains {
            let data_record = record(2, frame.request(), last.into(), frame.payload());
            self.records.extend(data_record);
        }
        Ok(())
    }

    fn slot_of(&self, id: u16) -> Option<usize> {
        let mut slots = self.state.slots.iter();
        slots.position(|slot| slot.phase != Phase::Free && slot.id == id)
    }

    pub fn finish(&mut self, id: u16) -> u8 {
        if self.state.dead != 0 {
            return self.state.dead;
        }
        let Some(seat) = self.slot_of(id) else {
            return 4;
        };
        match self.state.slots[seat].phase {
            Phase::Running => self.free(seat),
            Phase::Waiting => self.state.slots[seat].phase = Phase::Draining,
            _ => return 4,
        }
        0
    }

    fn free(&mut self, seat: usize) {
        self.state.slots[seat] = Slot::FREE;
        self.state.count -= 1;
    }
}

fn refuse_if(broken: bool, number: u8) -> Result<(), u8> {
    if broken {
        Err(number)
    } else {
        Ok(())
    }
}
