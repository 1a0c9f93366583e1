//! What is counted of starts and calls.

use crate::coverage::Coverage;
use crate::drains::Drains;
use crate::watch::{ways, Before, Feed};
use second::frame::{
    claimed, COMMAND, CONTINUATION, DATA, HEADER, MORE, PAYLOAD, RECORD, SETTINGS,
};
use second::receiver::{Event, Receiver};
use second::sender::SIZE;
use second::state::{plain_ways, Phase, State, PENDING, SLOTS};

/// What the counts must remember from one call to the next.
#[derive(Default)]
pub struct Memory {
    /// Whether the start was a poke, and no feed has come since.
    poked: bool,
    /// The byte before which the last feed stopped with 5.
    untaken: Option<u8>,
}

impl Coverage {
    /// `state` is that of the start, if neither 2 nor 3 applies to it.
    pub fn start(&mut self, receiver: &Receiver, state: Option<&State>, poked: bool) {
        self.memory = Memory {
            poked,
            untaken: None,
        };
        self.drains = Drains::default();
        let Some(state) = state else {
            return;
        };
        let used = state.used().next().is_some();
        self.add_if(used, "start with slots in use");
        self.draining_start(receiver, state);
        self.add_if(state.pending > 0, "start in mid-frame");
        let full = state.pending == PENDING;
        self.add_if(full, "start with 65,542 bytes pending");
        let header = (3..8).contains(&state.pending) && claimed(receiver.work()) > PAYLOAD;
        let little = "start with a length above 65,535 in less than 8 bytes";
        self.add_if(header, little);
        self.add_if(state.dead != 0, "start dead");
        let both = state.dead != 0 && state.pending > 0;
        self.add_if(both, "start dead in mid-frame");
    }

    pub fn feed(&mut self, receiver: &Receiver, before: &Before, feed: &Feed) {
        let dead = before.state.dead;
        match feed.number {
            0 => {}
            1 => self.number(1),
            2 => {
                self.number(2);
                let plain = plain_ways(&before.state);
                self.add_if(!plain.is_empty(), "2 though 3 applies too");
            }
            3 => {
                self.number(3);
                let (plain, held) = ways(receiver);
                self.shape(&plain, &held);
                self.draining_shape(&before.state, &plain, &held);
                self.feed_refused(receiver, feed);
                self.add_if(dead >= 11, "3 though dead");
            }
            5 => self.stop(receiver, feed),
            _ if dead != 0 => {
                let little = feed.output < RECORD;
                self.add_if(!little, "dead answered to a feed");
                self.add_if(little, "dead answered to a feed with too little output");
            }
            _ => self.refusal(receiver, feed),
        }
        let passed = matches!(feed.number, 0 | 5 | 11..);
        self.add_if(passed && feed.input.is_empty(), "empty input");
        self.add_if(passed && feed.input.len() == 1, "input of one byte");
        self.after_last(feed);
        self.frames(receiver, before, feed);
    }

    /// What this feed is after the last call.
    fn after_last(&mut self, feed: &Feed) {
        let poked = self.memory.poked && feed.taken > 0;
        self.add_if(poked, "start by a poke alone");
        if let Some(untaken) = self.memory.untaken {
            let again = feed.input.first() == Some(&untaken);
            self.add_if(again, "5, and the rest offered again");
            self.add_if(!again, "5, and the rest not offered again");
            let refused = feed.number > 11 && feed.taken == 1;
            self.add_if(refused, "5 before a frame that is then refused");
        }
        let stopped = feed.number == 5;
        self.memory = Memory {
            poked: false,
            untaken: stopped.then(|| feed.input[feed.taken]),
        };
    }

    /// The type and flags are the byte before which the call stopped, if
    /// the frame has no payload.
    fn stop(&mut self, receiver: &Receiver, feed: &Feed) {
        self.number(5);
        let last = if receiver.state().pending < HEADER as u64 {
            feed.input[feed.taken]
        } else {
            receiver.work()[7]
        };
        let kind = last >> 4;
        self.stopped_drain(receiver, kind);
        let silent = kind == SETTINGS || kind == COMMAND && last & MORE != 0;
        self.add_if(silent, "5 before a frame that writes nothing");
        let short = feed.output - feed.written == RECORD - 1;
        self.add_if(short, "5 with 65,543 bytes of output left");
        let long = kind == DATA && is_large(claimed(receiver.work()));
        self.add_if(long, "5 before the last byte of a large data frame");
        let large = feed.output >= 2 * RECORD;
        self.add_if(large, "5 with an output of 131,088 or more");
    }

    /// The refused frame still stands in the work area.
    fn refusal(&mut self, receiver: &Receiver, feed: &Feed) {
        self.number(feed.number);
        let after = feed.written > 0;
        self.add_if(after, "refused after records of the same feed");
        let left = feed.output - feed.written;
        let little = feed.number == 11 && left < RECORD;
        self.add_if(little, "11 with too little output left for a record");
        let length = claimed(receiver.work());
        let one = feed.number == 11 && length == PAYLOAD + 1;
        self.add_if(one, "65,536 bytes claimed, 11");
        let large = feed.number > 11 && is_large(length);
        self.add_if(large, "a large frame refused on its last byte");
        if matches!(feed.number, 24..=26) {
            let again = receiver.work()[7] & CONTINUATION != 0;
            let frame = if again { "continuation" } else { "new frame" };
            self.add(&format!("{} on a {frame}", feed.number));
        }
    }

    /// Where large data frames are cut, and how much output they have.
    fn large(&mut self, receiver: &Receiver, before: &Before, feed: &Feed) {
        let pending = before.state.pending as usize;
        let under_way = receiver.state().pending as usize;
        let started = (HEADER - 1..=HEADER + 1).contains(&under_way) && feed.taken > 0;
        let claims = started && under_way >= HEADER && is_large(claimed(receiver.work()));
        self.add_if(claims, "a large frame cut behind its header");
        let Some(Event::Frame(frame)) = receiver.history().get(before.events) else {
            return;
        };
        let length = frame.payload().len();
        if !is_large(length) {
            return;
        }
        let last = pending == HEADER + length - 1;
        self.add_if(last, "a large frame's last byte alone");
        self.add_if(pending == 0, "a large frame in one feed");
        let exact = length == PAYLOAD && feed.output == RECORD;
        self.add_if(exact, "data of 65,535 bytes, 65,544 bytes of output");
    }

    fn frames(&mut self, receiver: &Receiver, before: &Before, feed: &Feed) {
        let history = receiver.history();
        let added = history.len() - before.events;
        self.add_if(added > 1, "several frames in one feed");
        let cut = added > 0 && before.state.pending > 0;
        self.add_if(cut, "frame over several feeds");
        self.large(receiver, before, feed);
        for place in before.events..history.len() {
            if let Event::Frame(frame) = &history[place] {
                self.accepted(frame, &history[..place]);
            }
        }
        let used = |state: &State| state.used().count();
        let filled = used(&receiver.state()) == SLOTS && used(&before.state) < SLOTS;
        self.add_if(filled, "eighth request");
    }

    pub fn finish(&mut self, receiver: &Receiver, before: &Before, id: u16, answer: u8) {
        match answer {
            0 => {
                self.add("finish accepted");
                self.finished_early(receiver, before, id);
                let mid = before.state.pending > 0;
                self.add_if(mid, "finish accepted in mid-frame");
                let odd = !ways(receiver).1.is_empty();
                self.add_if(odd, "finish accepted with a held length out of shape");
            }
            3 => {
                self.add("3 answered to a finish");
                self.finish_refused(receiver, id);
            }
            4 => {
                self.number(4);
                self.add(match phase_of(&before.state, id) {
                    Phase::Collecting => "finish of a collecting id, 4",
                    Phase::Free => "finish of an id that is not active, 4",
                    _ => "finish of a draining id, 4",
                });
            }
            _ => self.add("dead answered to a finish"),
        }
    }
}

/// The phase of an id, free if it is not active.
pub fn phase_of(state: &State, id: u16) -> Phase {
    let held = state.used().find(|slot| slot.id == id);
    held.map_or(Phase::Free, |slot| slot.phase)
}

/// More than a payload could have before E7, which is what a sender may still write,
/// and no more than it can have now.
pub fn is_large(length: usize) -> bool {
    (SIZE as usize + 1..=PAYLOAD).contains(&length)
}
