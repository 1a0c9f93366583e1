//! Watches the second receiver while it answers lines. What it does in
//! calls is held against the uncut reading of the bytes taken: the joined
//! records, the answers to finishes, the state and every byte of the work
//! area. This is done after each call, since the calls of a session up to
//! any one are a session too. `fresh`, `set` and `poke` start another.

use crate::coverage::Coverage;
use second::frame::{claimed, HEADER, RECORD};
use second::receiver::{Receiver, Uncut};
use second::replay::{from_hex, state_text, Replay};
use second::state::{held_ways, plain_ways, State, Way, SLOTS, WORK};
use std::iter::repeat;

pub struct Watch {
    replay: Replay,
    /// The uncut reading since the start; none if 2 or 3 applies to it.
    uncut: Option<Uncut>,
    /// The records since the start, and the work area at it.
    records: Vec<u8>,
    area: Vec<u8>,
}

impl Default for Watch {
    fn default() -> Watch {
        let mut watch = Watch {
            replay: Replay::default(),
            uncut: None,
            records: Vec::new(),
            area: Vec::new(),
        };
        watch.start();
        watch
    }
}

/// A feed, as its line and its answer have it.
pub struct Feed {
    pub output: usize,
    pub input: Vec<u8>,
    pub number: u8,
    pub taken: usize,
    pub written: usize,
    pub records: Vec<u8>,
}

impl Feed {
    fn read(asked: &[&str], told: &[&str]) -> Feed {
        Feed {
            output: number(asked[1]),
            input: bytes(asked[2]),
            number: number(told[1]),
            taken: number(told[2]),
            written: number(told[3]),
            records: bytes(told[4]),
        }
    }
}

/// What the receiver held before a call.
pub struct Before {
    pub state: State,
    /// How long its history was.
    pub events: usize,
}

fn number<T: std::str::FromStr>(word: &str) -> T {
    let number = word.parse().ok();
    number.expect("a line that was answered has numbers where they belong")
}

fn bytes(word: &str) -> Vec<u8> {
    from_hex(word).expect("a line that was answered has bytes where they belong")
}

fn must(holds: bool, reason: &str) -> Result<(), String> {
    if holds {
        Ok(())
    } else {
        Err(reason.to_string())
    }
}

impl Watch {
    /// Has the line answered. An error says what is wrong with the answer.
    pub fn line(&mut self, line: &str, coverage: &mut Coverage) -> Result<(), String> {
        let receiver = self.replay.receiver();
        let before = Before {
            state: receiver.state(),
            events: receiver.history().len(),
        };
        let answer = self.replay.answer(line.as_bytes()).unwrap_or_default();
        let asked: Vec<&str> = line.split(' ').collect();
        let told: Vec<&str> = answer.split(' ').collect();
        match told[0] {
            "fresh" | "set" | "poked" => {
                self.start();
                let state = self.uncut.as_ref().map(|uncut| &uncut.state);
                coverage.start(self.replay.receiver(), state, told[0] == "poked");
            }
            "fed" => {
                let feed = Feed::read(&asked, &told);
                coverage.feed(self.replay.receiver(), &before, &feed);
                self.fed(feed, coverage)?;
            }
            "finished" => {
                let (id, answer) = (number(asked[1]), number(told[1]));
                coverage.finish(self.replay.receiver(), &before, id, answer);
                self.finished(id, answer)?;
            }
            "active" | "row" => self.shown(&told, coverage)?,
            "tail" => must(told[1] == "kept", "output past the written count changed")?,
            "argument" | "integer" => {
                let answer: u8 = number(told[1]);
                if matches!(answer, 6..=8) {
                    coverage.number(answer);
                }
            }
            _ => {}
        }
        Ok(())
    }

    fn start(&mut self) {
        let receiver = self.replay.receiver();
        let (state, work) = (receiver.state(), receiver.work());
        self.area = work.to_vec();
        self.records.clear();
        let (plain, held) = ways(receiver);
        let sound = work.len() >= WORK && plain.is_empty() && held.is_empty();
        self.uncut = sound.then(|| Uncut::start(state, work.to_vec()));
    }

    fn fed(&mut self, feed: Feed, coverage: &mut Coverage) -> Result<(), String> {
        let Some(uncut) = &mut self.uncut else {
            let nothing = feed.taken == 0 && feed.written == 0;
            must(nothing, "2 or 3 applies, but something was taken")?;
            let refused = matches!(feed.number, 2 | 3);
            must(refused, "2 or 3 applies, but another number came")?;
            let kept = self.replay.receiver().work() == self.area;
            return must(kept, "2 or 3 applies, but the work area changed");
        };
        let before = uncut.records.len();
        for byte in &feed.input[..feed.taken] {
            let written = uncut.records.len() - before;
            let judged = next_is_last(uncut).then(|| uncut.state.clone());
            if judged.is_some() {
                let room = feed.output.checked_sub(written + RECORD);
                must(room.is_some(), "a last byte was taken without room")?;
                let exact = room == Some(0) && written > 0;
                coverage.add_if(exact, "last byte taken with 65,544 bytes of output left");
            }
            uncut.byte(*byte);
            if let Some(before) = judged {
                coverage.judged(&before, uncut);
            }
        }
        counts(&feed, uncut)?;
        self.records.extend(feed.records);
        self.as_uncut()
    }

    fn finished(&mut self, id: u16, answer: u8) -> Result<(), String> {
        if let Some(uncut) = &mut self.uncut {
            let number = uncut.finish(id);
            must(
                number == answer,
                &format!("demand 3: finish answers {answer}, uncut {number}"),
            )?;
        }
        self.as_uncut()
    }

    /// What the panel shows.
    fn shown(&self, told: &[&str], coverage: &mut Coverage) -> Result<(), String> {
        let receiver = self.replay.receiver();
        let answer = number(told[1]);
        if told[0] == "row" {
            coverage.row(receiver, answer, told.len() - 2);
            return self.row(answer, &told[2..]);
        }
        let count = number(told[2]);
        coverage.active(receiver, answer, count);
        self.active(answer, count)
    }

    /// It is refused where finish is refused with 3; what a feed asks beside, and a
    /// dead number, do not matter.
    fn active(&self, answer: u8, count: usize) -> Result<(), String> {
        let state = self.replay.receiver().state();
        let wanted = match plain_ways(&state)[..] {
            [] => (0, state.used().count()),
            _ => (3, 0),
        };
        let other = format!("active answers {answer} and {count}, not {wanted:?}");
        must((answer, count) == wanted, &other)
    }

    /// The slots' ids and phases, if the row is filled; what is not is as it was.
    fn row(&self, answer: u8, entries: &[&str]) -> Result<(), String> {
        let state = self.replay.receiver().state();
        let number = match (plain_ways(&state).is_empty(), entries.len() < SLOTS) {
            (false, _) => 3,
            (true, true) => 9,
            (true, false) => 0,
        };
        must(answer == number, &format!("row {answer}, not {number}"))?;
        let text = state_text(&state);
        let slots = text.split(' ').skip(2).filter_map(|slot| {
            let (slot, _length) = slot.rsplit_once(':')?;
            Some(slot.rsplit_once(':')?.0)
        });
        let filled = slots.take(if number == 0 { SLOTS } else { 0 });
        let wanted = filled.chain(repeat("65535:x")).take(entries.len());
        let same = wanted.eq(entries.iter().copied());
        must(same, &format!("a row with the entries {entries:?}"))
    }

    fn as_uncut(&self) -> Result<(), String> {
        let Some(uncut) = &self.uncut else {
            return Ok(());
        };
        let receiver = self.replay.receiver();
        let same = self.records == uncut.records;
        must(same, "demand 3: the joined records differ")?;
        let state = receiver.state();
        if state != uncut.state {
            let (cut, uncut) = (state_text(&state), state_text(&uncut.state));
            return Err(format!("demand 3: the state is {cut}, uncut {uncut}"));
        }
        if receiver.work() == uncut.work {
            return Ok(());
        }
        let mut places = (0..).zip(receiver.work()).zip(&uncut.work);
        let differs = places.find(|((_, cut), uncut)| cut != uncut);
        let place = differs.map_or(0, |((place, _), _)| place);
        Err(format!("demand 3: the work area differs at place {place}"))
    }
}

fn next_is_last(uncut: &Uncut) -> bool {
    let pending = uncut.state.pending as usize + 1;
    pending >= HEADER && pending == HEADER + claimed(&uncut.work)
}

/// What a feed's number says of its counts. The uncut reader has read the
/// bytes taken.
fn counts(feed: &Feed, uncut: &Uncut) -> Result<(), String> {
    let all = feed.taken == feed.input.len();
    match feed.number {
        0 => must(all, "0, but not all was taken"),
        5 => {
            must(!all, "5, but all was taken")?;
            must(next_is_last(uncut), "5, but not before a last byte")?;
            let left = feed.output - feed.written;
            must(left < RECORD, "5, but there was room")
        }
        1..=3 => must(feed.taken == 0, "1 to 3, but something was taken"),
        _ => Ok(()),
    }
}

/// The ways in which the receiver is out of shape, those in the plain
/// numbers and those in the held length.
pub fn ways(receiver: &Receiver) -> (Vec<Way>, Vec<Way>) {
    let state = receiver.state();
    let plain = plain_ways(&state);
    if receiver.work().len() < HEADER {
        return (plain, Vec::new());
    }
    let held = held_ways(&state, receiver.work());
    (plain, held)
}
