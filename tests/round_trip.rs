//! What the archive sends, received again by the archive: in random pieces, on
//! a channel that is ready for it. That is a live one between frames, with the
//! id inactive, a free slot, and the stream closed exactly if beginning is
//! wished. Slots and streams besides are used at random.
//!
//!     round_trip run SEED COUNT       every accepted one of COUNT requests
//!     round_trip damaged SEED COUNT   the same with a bit of the first length changed on the way

#[path = "tally.rs"]
mod tally;

use generate::{Random, Sending};
use hgrpc::{records, send, Kind, Record, Request};
use hgrpc::{COMMAND_LONGEST, OUTPUT, RECORD_HEAD, WORK};
use second::bytes;
use second::command::loose;
use second::sender;
use second::state::{Phase, Slot, State, SLOTS};
use second::value::{read_entries, Value};
use std::process::exit;
use tally::Tally;

const MET: [&str; 16] = [
    "a fresh channel",
    "one slot free",
    "the first slot in use",
    "a slot that drains",
    "the stream open",
    "other streams open",
    "one piece",
    "pieces of one byte",
    "5, and the rest offered again",
    "no data",
    "empty data",
    "data in several records",
    "loose pairs without data",
    "loose pairs with data",
    "shortest pairs without data",
    "shortest pairs with data",
];

/// The bytes that are written, if the request is accepted.
fn sent(sending: &Sending) -> Option<Vec<u8>> {
    let request = Request {
        id: sending.request,
        stream: sending.stream,
        begin: sending.begin,
        end: sending.end,
        size: sending.size as usize,
        name: &sending.name,
        pairs: &sending.pairs,
        count: sending.count,
        data: sending.data.as_deref(),
    };
    let mut output = vec![0; sending.output];
    let answer = send(&request, &mut output);
    output.truncate(answer.written);
    (answer.number == 0).then_some(output)
}

/// The command that was asked for, by the second sender.
fn command(sending: &Sending) -> Vec<u8> {
    sender::Request {
        name: &sending.name,
        pairs: &sending.pairs,
        count: sending.count,
        id: sending.request,
        stream: sending.stream,
        begin: sending.begin,
        end: sending.end,
        size: sending.size,
        data: sending.data.as_deref(),
    }
    .command()
}

const USED: [Phase; 4] = [
    Phase::Collecting,
    Phase::Waiting,
    Phase::Running,
    Phase::Draining,
];

/// A state that is ready for the request, with up to seven slots in use.
fn ready(sending: &Sending, random: &mut Random, tally: &mut Tally) -> State {
    let mut state = State::fresh();
    let used = random.pick(&[0, 0, 1, 2, 3, 5, 7]);
    let mut seats: Vec<usize> = (0..SLOTS).collect();
    random.shuffle(&mut seats);
    for (seat, place) in seats[..used].iter().zip(1..) {
        let phase = random.pick(&USED);
        let length = match phase {
            Phase::Collecting => random.between(0, COMMAND_LONGEST) as u64,
            _ => 0,
        };
        state.slots[*seat] = Slot {
            // Odd, and none of them the request's own.
            id: sending.request.wrapping_add(2 * place),
            phase,
            data: matches!(phase, Phase::Waiting | Phase::Draining) || random.percent(50),
            length,
        };
    }
    state.count = used as u8;
    if random.percent(50) {
        state.open.extend((0..5).map(|_| random.byte() | 1));
    }
    match sending.begin {
        true => state.open.remove(&sending.stream),
        false => state.open.insert(sending.stream),
    };
    tally.add_if(used == 0 && state.open.is_empty(), "a fresh channel");
    tally.add_if(used == SLOTS - 1, "one slot free");
    tally.add_if(seats[..used].contains(&0), "the first slot in use");
    let drains = state.used().any(|slot| slot.phase == Phase::Draining);
    tally.add_if(drains, "a slot that drains");
    tally.add_if(!sending.begin, "the stream open");
    tally.add_if(state.open.len() > 1, "other streams open");
    state
}

/// The length of the next piece.
fn piece(style: usize, left: usize, random: &mut Random) -> usize {
    let length = match style {
        0 => left,
        1 => random.between(1, left),
        2 => random.between(1, 40),
        _ => 1,
    };
    length.min(left)
}

/// Feeds all bytes, and gives the records joined.
fn receive(
    state: &mut [u8],
    frames: &[u8],
    random: &mut Random,
    tally: &mut Tally,
) -> Result<Vec<u8>, String> {
    let longest = if frames.len() < 1500 { 4 } else { 2 };
    let style = random.below(longest);
    tally.add_if(style == 0, "one piece");
    tally.add_if(style == 3, "pieces of one byte");
    let mut work = vec![random.byte(); WORK];
    let mut output = vec![0; OUTPUT + random.pick(&[0, 0, 1, 100, 5000])];
    let (mut place, mut joined) = (0, Vec::new());
    while place < frames.len() {
        let length = piece(style, frames.len() - place, random);
        let fed = hgrpc::feed_bytes(state, &mut work, &frames[place..][..length], &mut output);
        joined.extend(&output[..fed.written]);
        place += fed.taken;
        tally.add_if(fed.number == 5, "5, and the rest offered again");
        let goes_on = fed.number == 5 || fed.number == 0 && fed.taken == length;
        if !goes_on {
            return Err(format!("feed answers {} at byte {place}", fed.number));
        }
    }
    Ok(joined)
}

/// The records are that very command and data.
fn judge(sending: &Sending, joined: &[u8], tally: &mut Tally) -> Result<(), String> {
    let wanted = command(sending);
    let mut read = records(joined);
    let first = read.next().ok_or("no record came")?;
    let is_command = first.kind == Kind::Command && first.bytes == wanted;
    must(is_command, "another command came")?;
    must(first.bit == sending.data.is_some(), "another data bit came")?;
    mark(sending, &first, tally)?;
    let rest: Vec<_> = read.collect();
    let lengths: usize = rest
        .iter()
        .map(|record| RECORD_HEAD + record.bytes.len())
        .sum();
    must(
        RECORD_HEAD + first.bytes.len() + lengths == joined.len(),
        "a broken record came",
    )?;
    let mut data: Vec<u8> = Vec::new();
    for (place, record) in (1..).zip(&rest) {
        must(record.kind == Kind::Data, "a second command came")?;
        must(record.bit == (place == rest.len()), "another last bit came")?;
        must(!record.loose, "data came with a mark")?;
        data.extend(record.bytes);
    }
    let same = rest.iter().all(|record| record.request == sending.request);
    must(
        same && first.request == sending.request,
        "another request came",
    )?;
    match &sending.data {
        None => must(rest.is_empty(), "data came")?,
        Some(asked) => must(!rest.is_empty() && data == *asked, "other data came")?,
    }
    tally.add_if(rest.is_empty(), "no data");
    tally.add_if(sending.data.as_deref() == Some(b""), "empty data");
    tally.add_if(rest.len() > 1, "data in several records");
    look_up(sending, first.bytes)
}

/// The command is marked exactly if the pairs are loose, for the heads around
/// them are shortest.
fn mark(sending: &Sending, first: &Record, tally: &mut Tally) -> Result<(), String> {
    let loose = loose(first.bytes);
    must(loose || !sending.wide, "wide heads, and it is not loose")?;
    must(first.loose == loose, "another mark came")?;
    tally.add_if(
        true,
        match (loose, first.bit) {
            (true, false) => "loose pairs without data",
            (true, true) => "loose pairs with data",
            (false, false) => "shortest pairs without data",
            (false, true) => "shortest pairs with data",
        },
    );
    Ok(())
}

/// The name and each argument, by the archive's lookups.
fn look_up(sending: &Sending, command: &[u8]) -> Result<(), String> {
    must(hgrpc::name(command) == Ok(&sending.name), "another name")?;
    let count = sending.count.to_be_bytes();
    let map = [b"\xbb", &count[..], &sending.pairs].concat();
    let entries = read_entries(&map).ok_or("the pairs are no map")?;
    for (key, item) in entries {
        let Value::Bytes(key) = key else {
            return Err("a key is no byte string".to_string());
        };
        must(
            hgrpc::argument(command, key) == Ok(item),
            "another argument",
        )?;
    }
    Ok(())
}

fn must(met: bool, reason: &str) -> Result<(), String> {
    met.then_some(()).ok_or(reason.to_string())
}

/// Sends and receives one request. The channel is then as it was, but for the
/// stream, once the request is finished.
fn trip(
    sending: &Sending,
    frames: &[u8],
    random: &mut Random,
    tally: &mut Tally,
) -> Result<(), String> {
    let mut start = ready(sending, random, tally);
    let mut state = bytes::write(&start);
    let joined = receive(&mut state, frames, random, tally)?;
    judge(sending, &joined, tally)?;
    must(
        hgrpc::finish_bytes(&mut state, sending.request) == 0,
        "it does not run",
    )?;
    match sending.end {
        true => start.open.remove(&sending.stream),
        false => start.open.insert(sending.stream),
    };
    must(
        state == bytes::write(&start),
        "other slots or streams changed",
    )
}

fn run(seed: u64, count: u64, damaged: bool) {
    let mut tally = Tally::of(&MET);
    let (mut accepted, mut total) = (0, 0);
    for index in 0..count {
        let sending = generate::sending(seed, index);
        let Some(mut frames) = sent(&sending) else {
            continue;
        };
        if damaged {
            frames[0] ^= 1;
        }
        let random = &mut Random::new(!index);
        if let Err(reason) = trip(&sending, &frames, random, &mut tally) {
            fail(&format!("seed {seed}, request {index}: {reason}"));
        }
        accepted += 1;
        total += frames.len();
    }
    if let Some(rare) = tally.rare() {
        fail(&format!(
            "\"{rare}\" came up too seldom in {accepted} accepted requests"
        ));
    }
    println!("round trip: {accepted} requests, {total} bytes sent and received in pieces, each as that very command and data");
}

fn fail(reason: &str) -> ! {
    println!("round trip: {reason}");
    exit(1)
}

fn main() {
    let arguments: Vec<String> = std::env::args().skip(1).collect();
    let words: Vec<&str> = arguments.iter().map(String::as_str).collect();
    let number = |word: &str| word.parse().expect("a number");
    match words[..] {
        ["run", seed, count] => run(number(seed), number(count), false),
        ["damaged", seed, count] => run(number(seed), number(count), true),
        _ => fail("run SEED COUNT or damaged SEED COUNT"),
    }
}
