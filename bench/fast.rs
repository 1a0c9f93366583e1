//! A receiver by hand, for comparing times: the rules 11 to 29, with the
//! state changed in place, slices copied whole, and nothing allocated. Its
//! state is private and so always in shape: rule 3 is not asked.

use crate::check::check;
use crate::hgrpc::{COMMAND_LONGEST, FRAME_HEAD, PAYLOAD_LONGEST, RECORD_HEAD, REQUESTS};

const HEADER: usize = FRAME_HEAD;
const PAYLOAD: usize = PAYLOAD_LONGEST;
const COMMAND: usize = COMMAND_LONGEST;
const SLOTS: usize = REQUESTS;
pub const RECORD: usize = RECORD_HEAD + PAYLOAD;
const PARTS: usize = HEADER + PAYLOAD;
pub const WORK: usize = PARTS + SLOTS * COMMAND;

#[derive(Clone, Copy, PartialEq, Eq)]
enum Phase {
    Free,
    Collecting,
    Waiting,
    Running,
    Draining,
}

#[derive(Clone, Copy)]
struct Slot {
    id: u16,
    phase: Phase,
    with_data: bool,
    length: usize,
}

const FREE: Slot = Slot {
    id: 0,
    phase: Phase::Free,
    with_data: false,
    length: 0,
};

struct Header {
    length: usize,
    request: u16,
    stream: u8,
    stream_flags: u8,
    kind: u8,
    flags: u8,
}

impl Header {
    fn is_set(&self, flag: u8) -> bool {
        self.flags & flag != 0
    }
}

pub struct Fed {
    pub number: u8,
    pub taken: usize,
    pub written: usize,
}

pub struct Receiver<'a> {
    work: &'a mut [u8; WORK],
    dead: u8,
    pending: usize,
    slots: [Slot; SLOTS],
    /// Bit k for stream 2k + 1.
    open: u128,
}

/// A work area that is not on the stack.
pub fn area() -> Box<[u8; WORK]> {
    let area = vec![0; WORK].into_boxed_slice();
    area.try_into().expect("it has this length")
}

impl<'a> Receiver<'a> {
    pub fn new(work: &'a mut [u8; WORK]) -> Receiver<'a> {
        Receiver {
            work,
            dead: 0,
            pending: 0,
            slots: [FREE; SLOTS],
            open: 0,
        }
    }

    pub fn work(&self) -> &[u8] {
        self.work
    }

    pub fn feed(&mut self, input: &[u8], out: &mut [u8]) -> Fed {
        let mut fed = Fed {
            number: 0,
            taken: 0,
            written: 0,
        };
        if self.dead != 0 {
            fed.number = self.dead;
        } else if out.len() < RECORD {
            fed.number = 1;
        } else if let Err(number) = self.read(input, out, &mut fed) {
            fed.number = number;
            if number != 5 {
                self.dead = number;
                self.pending = 0;
            }
        }
        fed
    }

    fn read(&mut self, input: &[u8], out: &mut [u8], fed: &mut Fed) -> Result<(), u8> {
        while fed.taken < input.len() {
            let room = out.len() - fed.written >= RECORD;
            if self.pending < HEADER {
                // Without room the eighth byte waits: it may be the last.
                let goal = if room { HEADER } else { HEADER - 1 };
                if !self.take(input, goal, fed) {
                    return Ok(());
                }
                if !room {
                    if fed.taken == input.len() {
                        return Ok(());
                    }
                    if self.claimed() == 0 {
                        return Err(5);
                    }
                    self.take(input, HEADER, fed);
                }
                if self.claimed() > PAYLOAD {
                    return Err(11);
                }
            }
            let end = HEADER + self.claimed();
            let goal = if room { end } else { end - 1 };
            if !self.take(input, goal, fed) {
                return Ok(());
            }
            if room {
                fed.written += self.judge(&mut out[fed.written..])?;
                self.pending = 0;
            } else if fed.taken < input.len() {
                return Err(5);
            }
        }
        Ok(())
    }

    /// Takes bytes of the frame up to `goal`. False if the input ends before.
    fn take(&mut self, input: &[u8], goal: usize, fed: &mut Fed) -> bool {
        let rest = &input[fed.taken..];
        let count = (goal - self.pending).min(rest.len());
        self.work[self.pending..][..count].copy_from_slice(&rest[..count]);
        self.pending += count;
        fed.taken += count;
        self.pending == goal
    }

    fn claimed(&self) -> usize {
        u32::from_le_bytes([self.work[0], self.work[1], self.work[2], 0]) as usize
    }

    /// The frame rules behind 11, in their order. The record's length.
    fn judge(&mut self, out: &mut [u8]) -> Result<usize, u8> {
        let header = Header {
            length: self.claimed(),
            request: u16::from_le_bytes([self.work[3], self.work[4]]),
            stream: self.work[5],
            stream_flags: self.work[6],
            kind: self.work[7] >> 4,
            flags: self.work[7] & 0x0f,
        };
        refuse_if(header.request & 1 == 0, 12)?;
        refuse_if(header.stream & 1 == 0, 13)?;
        refuse_if(header.stream_flags >= 0x08, 14)?;
        refuse_if(!matches!(header.kind, 1 | 2 | 9), 15)?;
        let bit = 1u128 << (header.stream >> 1);
        let open = self.open & bit != 0;
        let begins = header.stream_flags & 0x01 != 0;
        refuse_if(!open && !begins, 16)?;
        refuse_if(open && begins, 17)?;
        let written = match header.kind {
            1 => self.command(&header, out)?,
            2 => self.data(&header, out)?,
            _ => self.settings(&header, begins)?,
        };
        if header.stream_flags & 0x02 != 0 {
            self.open &= !bit;
        } else {
            self.open |= bit;
        }
        Ok(written)
    }

    /// The slot that a command frame is for.
    #[inline(always)]
    fn place(&self, header: &Header, with_data: bool) -> Result<usize, u8> {
        let held = self.slot_of(header.request);
        match header.flags & 0x03 {
            0x01 => {
                refuse_if(held.is_some(), 19)?;
                let free = self.slots.iter().position(|slot| slot.phase == Phase::Free);
                free.ok_or(20)
            }
            0x02 => {
                let place = held.ok_or(21)?;
                refuse_if(self.slots[place].phase != Phase::Collecting, 21)?;
                refuse_if(self.slots[place].with_data != with_data, 22)?;
                Ok(place)
            }
            _ => Err(18),
        }
    }

    fn command(&mut self, header: &Header, out: &mut [u8]) -> Result<usize, u8> {
        let with_data = header.is_set(0x08);
        let place = self.place(header, with_data)?;
        let before = self.slots[place].length;
        let length = before + header.length;
        refuse_if(length > COMMAND, 23)?;
        let (frame, parts) = self.work.split_at_mut(PARTS);
        let part = &mut parts[place * COMMAND..][..COMMAND];
        part[before..length].copy_from_slice(&frame[HEADER..][..header.length]);
        let mut written = 0;
        let phase = if header.is_set(0x04) {
            Phase::Collecting
        } else {
            let checked = check(&part[..length]);
            refuse_if(checked.number != 0, checked.number)?;
            let third = u8::from(with_data) | u8::from(checked.loose) << 1;
            written = put_record(out, 1, header.request, third, &part[..length]);
            if with_data {
                Phase::Waiting
            } else {
                Phase::Running
            }
        };
        self.slots[place] = Slot {
            id: header.request,
            phase,
            with_data,
            length: if phase == Phase::Collecting {
                length
            } else {
                0
            },
        };
        Ok(written)
    }

    fn data(&mut self, header: &Header, out: &mut [u8]) -> Result<usize, u8> {
        refuse_if(!matches!(header.flags, 0x01 | 0x02), 18)?;
        let place = self.slot_of(header.request).ok_or(27)?;
        let slot = &mut self.slots[place];
        let drains = slot.phase == Phase::Draining;
        refuse_if(!drains && slot.phase != Phase::Waiting, 27)?;
        let last = header.flags == 0x02;
        match (last, drains) {
            (false, _) => {}
            (true, false) => slot.phase = Phase::Running,
            (true, true) => *slot = FREE,
        }
        if drains {
            return Ok(0);
        }
        let payload = &self.work[HEADER..][..header.length];
        Ok(put_record(out, 2, header.request, last.into(), payload))
    }

    fn settings(&self, header: &Header, begins: bool) -> Result<usize, u8> {
        refuse_if(header.flags != 0x02, 18)?;
        refuse_if(!begins, 28)?;
        let payload = &self.work[HEADER..][..header.length];
        refuse_if(!crate::check::is_identity(payload), 29)?;
        Ok(0)
    }

    /// Used slots have odd ids, and free ones 0.
    fn slot_of(&self, id: u16) -> Option<usize> {
        self.slots.iter().position(|slot| slot.id == id)
    }

    pub fn finish(&mut self, id: u16) -> u8 {
        if self.dead != 0 {
            return self.dead;
        }
        let held = self.slots.iter_mut().find(|slot| slot.id == id);
        match held {
            Some(slot) if slot.phase == Phase::Running => *slot = FREE,
            Some(slot) if slot.phase == Phase::Waiting => slot.phase = Phase::Draining,
            _ => return 4,
        }
        0
    }
}

fn put_record(out: &mut [u8], kind: u8, request: u16, third: u8, content: &[u8]) -> usize {
    let body = (content.len() as u32 + 3).to_le_bytes();
    let id = request.to_le_bytes();
    out[..4].copy_from_slice(&body);
    out[4..RECORD_HEAD].copy_from_slice(&[kind, 0, id[0], id[1], third]);
    out[RECORD_HEAD..][..content.len()].copy_from_slice(content);
    RECORD_HEAD + content.len()
}

fn refuse_if(broken: bool, number: u8) -> Result<(), u8> {
    if broken {
        Err(number)
    } else {
        Ok(())
    }
}
