//! The whole way of a command: what laptops ask for is sent by the archive, fed to
//! the archive in random pieces, and done by the archive's board. The board is then
//! what a plain model of the coils is that does what was asked for. A command that the
//! board refuses is finished at once, so that data behind it is drained (E8).
//!
//!     whole_way run SEED SESSIONS       several laptops at once, several messages of each
//!     whole_way damaged SEED SESSIONS   the same with a bit of each set's last byte changed on the way

#[path = "whole_way/laptops.rs"]
mod laptops;
#[path = "tally.rs"]
mod tally;
#[path = "whole_way/wish.rs"]
mod wish;

use generate::Random;
use hgrpc::{records, Board, Kind, Phase, Record, State, COILS, LABEL_LONGEST, OUTPUT, WORK};
use laptops::{line, Due, Line};
use std::collections::{BTreeSet, VecDeque};
use std::process::exit;
use tally::Tally;
use wish::Wish;

const MET: [&str; 18] = [
    "four laptops",
    "a command whole while another is under way",
    "frames of one byte",
    "frames of 4,096 bytes",
    "data behind the command",
    "a request id above 255",
    "a command written loosely",
    "a command written in the shortest heads",
    "one piece",
    "pieces of one byte",
    "5, and the rest offered again",
    "a command done",
    "a command that the board refuses",
    "a command that the board refuses, and data behind it",
    "data of a refused command drained",
    "a coil switched",
    "a label shorter than the one before",
    "off while a coil is on",
];

/// The coils as the test has them.
struct Model {
    on: [bool; COILS],
    labels: [Vec<u8>; COILS],
}

impl Model {
    fn first() -> Model {
        Model {
            on: [false; COILS],
            labels: std::array::from_fn(|_| Vec::new()),
        }
    }

    /// The number that the board is to answer.
    fn grant(&mut self, wish: &Wish, tally: &mut Tally) -> u32 {
        match wish {
            Wish::Set(coil, on) => {
                tally.add_if(self.on[*coil] != *on, "a coil switched");
                self.on[*coil] = *on;
            }
            Wish::Label(coil, text) => {
                let shorter = text.len() < self.labels[*coil].len();
                tally.add_if(shorter, "a label shorter than the one before");
                self.labels[*coil] = text.clone();
            }
            Wish::Off => {
                tally.add_if(self.on.contains(&true), "off while a coil is on");
                self.on = [false; COILS];
            }
            Wish::Refused(number, ..) => return *number,
        }
        0
    }

    /// Whether the board is this one, by its calls and by its bytes.
    fn is(&self, board: &Board) -> bool {
        let mut bytes = Vec::new();
        for (on, label) in self.on.iter().zip(&self.labels) {
            bytes.extend([u8::from(*on), label.len() as u8]);
            bytes.extend(label);
            bytes.resize(bytes.len() + LABEL_LONGEST - label.len(), 0);
        }
        let same = |coil: usize| {
            board.switch(coil) == Ok(self.on[coil]) && board.label(coil) == Ok(&self.labels[coil])
        };
        board.bytes() == bytes && (0..COILS).all(same)
    }
}

/// The receiving side: a channel, a board, and the model beside it.
struct Site {
    state: State,
    board: Board,
    model: Model,
    /// What is still to come, in the order in which the commands become whole.
    due: VecDeque<Due>,
    /// The refused requests that were finished before their data.
    early: BTreeSet<u16>,
}

impl Site {
    /// What a board does with a record.
    fn take(&mut self, record: &Record, tally: &mut Tally) -> Result<(), String> {
        if record.kind == Kind::Command {
            let due = self.due.pop_front().ok_or("a command too many came")?;
            must(record.request == due.id, "another request came")?;
            must(record.loose == due.loose, "another mark came")?;
            let number = self.board.apply(record.bytes);
            let wanted = self.model.grant(&due.wish, tally);
            must(
                number == wanted,
                &format!("the board answers {number}, not {wanted}"),
            )?;
            must(self.model.is(&self.board), "the coils do something else")?;
            tally.add_if(number == 0, "a command done");
            tally.add_if(number != 0, "a command that the board refuses");
            if number != 0 && record.bit {
                tally.add_if(true, "a command that the board refuses, and data behind it");
                self.early.insert(record.request);
                return self.finish(record.request);
            }
        }
        match record.runs() && !self.early.contains(&record.request) {
            true => self.finish(record.request),
            false => Ok(()),
        }
    }

    /// How many requests drain.
    fn drains(&self) -> usize {
        let row = self.state.row();
        let drains = row.iter().filter(|entry| entry.phase == Phase::Draining);
        drains.count()
    }

    fn finish(&mut self, id: u16) -> Result<(), String> {
        let number = self.state.finish(id);
        must(number == 0, &format!("finish answers {number}"))
    }

    /// What one feed wrote. Data of a request that was finished early comes only where
    /// it was written before the finish, by the same feed.
    fn take_all(&mut self, output: &[u8], tally: &mut Tally) -> Result<(), String> {
        let drained = self.early.clone();
        for record in records(output) {
            let late = drained.contains(&record.request);
            must(!late, "a record of a request that drains came")?;
            self.take(&record, tally)?;
        }
        Ok(())
    }

    fn feed(&mut self, line: &Line, random: &mut Random, tally: &mut Tally) -> Result<(), String> {
        let bytes = &line.bytes;
        let style = random.below(if bytes.len() < 1500 { 4 } else { 3 });
        tally.add_if(style == 0, "one piece");
        tally.add_if(style == 3, "pieces of one byte");
        let mut work = vec![random.byte(); WORK];
        let mut output = vec![0; OUTPUT + random.pick(&[0, 0, 1, 23])];
        let mut place = 0;
        while place < bytes.len() {
            let left = bytes.len() - place;
            let any = random.between(1, left);
            let length = [left, any, any.min(40), 1][style];
            let piece = &bytes[place..][..length];
            let drains = self.drains();
            let fed = self.state.feed(&mut work, piece, &mut output);
            let ended = self.drains() < drains;
            tally.add_if(ended, "data of a refused command drained");
            self.take_all(&output[..fed.written], tally)?;
            place += fed.taken;
            tally.add_if(fed.number == 5, "5, and the rest offered again");
            let goes_on = fed.number == 5 || fed.number == 0 && fed.taken == length;
            let answer = format!("feed answers {} at byte {place}", fed.number);
            must(goes_on, &answer)?;
        }
        must(self.due.is_empty(), "a command did not come")?;
        must(self.state.active() == 0, "a request is still active")
    }
}

fn must(met: bool, reason: &str) -> Result<(), String> {
    met.then_some(()).ok_or(reason.to_string())
}

/// The number of messages of a session.
fn session(random: &mut Random, damaged: bool, tally: &mut Tally) -> Result<usize, String> {
    let mut line = line(random, tally)?;
    if damaged {
        line.set_ends
            .iter()
            .for_each(|place| line.bytes[*place] ^= 1);
    }
    let due = std::mem::take(&mut line.due);
    let count = due.len();
    let mut site = Site {
        state: State::fresh(),
        board: Board::first(),
        model: Model::first(),
        due,
        early: BTreeSet::new(),
    };
    site.feed(&line, random, tally)?;
    Ok(count)
}

fn run(seed: u64, sessions: u64, damaged: bool) {
    let mut tally = Tally::of(&MET);
    let mut messages = 0;
    for index in 0..sessions {
        let start = Random::new(seed ^ 0x3a11).next() ^ Random::new(!index).next();
        match session(&mut Random::new(start), damaged, &mut tally) {
            Ok(count) => messages += count,
            Err(reason) => fail(&format!("seed {seed}, session {index}: {reason}")),
        }
    }
    if let Some(rare) = tally.rare() {
        fail(&format!(
            "\"{rare}\" came up too seldom in {messages} messages"
        ));
    }
    println!("whole way: {sessions} sessions, {messages} messages, and the coils do what the laptops asked for");
}

fn fail(reason: &str) -> ! {
    println!("whole way: {reason}");
    exit(1)
}

fn main() {
    let arguments: Vec<String> = std::env::args().skip(1).collect();
    let words: Vec<&str> = arguments.iter().map(String::as_str).collect();
    let number = |word: &str| word.parse().expect("a number");
    match words[..] {
        ["run", seed, sessions] => run(number(seed), number(sessions), false),
        ["damaged", seed, sessions] => run(number(seed), number(sessions), true),
        _ => fail("run SEED SESSIONS or damaged SEED SESSIONS"),
    }
}
