//! Sessions of a channel, as lines of `replay`.

use crate::client::{frame, Client, Phase, Step};
use crate::commands;
use crate::cuts::{cut, cut_large, feed, hex, row};
use crate::random::Random;
use crate::refused;
use crate::sizes::{
    LARGEST_AREA, LEAST_OUTPUT, LONGEST_COMMAND, LONGEST_LINE, LONGEST_PAYLOAD, LONGEST_SENT,
    PARTS, SLOTS, WORK,
};
use crate::starts::{break_count, break_drain, break_shape, heal, seated, Seated, WAYS};

/// The session of this seed and index. It lends a work area before its first
/// call, so that nothing of an earlier session stays.
pub fn session(seed: u64, index: u64) -> Vec<String> {
    let random = &mut random_of(seed, index);
    let mut lines = vec![format!("# session {index} of seed {seed}")];
    match random.below(100) {
        0..=52 => fresh_talk(random, &mut lines),
        53..=55 => drain_talk(random, &mut lines),
        56..=58 => wrong_count(random, &mut lines),
        59..=80 => seated_talk(random, &mut lines),
        81..=88 => out_of_shape(random, &mut lines),
        89..=91 => short_area(random, &mut lines),
        92 => long_talk(random, &mut lines),
        93 | 94 => heavy_talk(random, &mut lines),
        95..=97 => lookups(seed, index, random, &mut lines),
        98 => unreadable(random, &mut lines),
        _ => noise(random, &mut lines),
    }
    last_looks(random, &mut lines);
    lines
}

/// The same, of the kind that drains.
pub fn drain_session(seed: u64, index: u64) -> Vec<String> {
    let random = &mut random_of(seed, index);
    let mut lines = vec![format!("# drain session {index} of seed {seed}")];
    drain_talk(random, &mut lines);
    last_looks(random, &mut lines);
    lines
}

fn random_of(seed: u64, index: u64) -> Random {
    let start = Random::new(seed ^ 0x5e55).next() ^ Random::new(!index).next();
    Random::new(start)
}

fn last_looks(random: &mut Random, lines: &mut Vec<String>) {
    lines.extend(["state", "tail", "worksum", "active"].map(String::from));
    lines.push(row(random));
}

/// A work area that is long enough.
fn lend(random: &mut Random, lines: &mut Vec<String>) {
    let length = random.pick(&[WORK, WORK, WORK, WORK + 1, WORK + 500, LARGEST_AREA]);
    let line = match random.below(3) {
        0 => format!("fresh {length}"),
        _ => format!("fresh {length} {}", random.below(256)),
    };
    lines.push(line);
}

/// Good steps, then often trouble.
fn fresh_talk(random: &mut Random, lines: &mut Vec<String>) {
    lend(random, lines);
    let client = Client::default();
    talk(client, random, lines);
    if random.percent(10) {
        poke_between(random, lines);
    }
}

/// Drains, and then a talk, or a frame that is refused for a drain; at times a draining
/// slot out of shape (E8).
fn drain_talk(random: &mut Random, lines: &mut Vec<String>) {
    lend(random, lines);
    let mut client = Client::default();
    for _ in 0..random.between(1, 3) {
        client.drain_whole(random);
    }
    if random.percent(50) {
        talk(client, random, lines);
    } else {
        refused::add_for_drain(&mut client, random);
        cut(client.steps, random, lines);
    }
    if random.percent(40) {
        let Seated {
            mut start,
            client,
            pokes,
        } = seated(random);
        lines.extend(pokes);
        break_drain(&mut start, random);
        lines.push(start.line());
        calls(&client, random, lines);
    }
}

/// Other bytes in the work area at any time, mostly where the receiver has
/// left something. What the client then sends may be wrong.
fn poke_between(random: &mut Random, lines: &mut Vec<String>) {
    let place = match random.below(4) {
        0 => random.below(4),
        1 => random.below(40),
        2 => PARTS + LONGEST_COMMAND * random.below(SLOTS) + random.below(20),
        _ => random.pick(&[PARTS - 1, WORK - 1]),
    };
    let bytes = [random.byte()];
    let line = random.between(2, lines.len());
    lines.insert(line, format!("poke {place} {}", hex(&bytes)));
}

fn talk(client: Client, random: &mut Random, lines: &mut Vec<String>) {
    let steps = troubled(client, random);
    cut(steps, random, lines);
}

/// Good steps, often one that is wrong, and a few behind it.
pub fn troubled(mut client: Client, random: &mut Random) -> Vec<Step> {
    for _ in 0..random.between(0, 30) {
        client.act(random);
    }
    match random.below(10) {
        0..=2 => {}
        3..=7 => {
            // 24 to 26 twice as often, on new frames and on others.
            let number = match random.between(11, 32) as u8 {
                number @ 30.. => number - 6,
                number => number,
            };
            refused::add(&mut client, random, number);
        }
        _ => flip_bits(&mut client, random),
    }
    for _ in 0..random.below(6) {
        client.act(random);
    }
    client.steps
}

/// Flips a few bits of one frame, more often in its header.
fn flip_bits(client: &mut Client, random: &mut Random) {
    let (mut bytes, record) = client.next_frame(random, |_| true);
    for _ in 0..random.between(1, 3) {
        let end = if random.percent(60) { 8 } else { bytes.len() };
        bytes[random.below(end)] ^= 1 << random.below(8);
    }
    client.steps.push(Step::Frame { bytes, record });
}

fn seated_talk(random: &mut Random, lines: &mut Vec<String>) {
    lend(random, lines);
    for _ in 0..random.pick(&[1, 1, 2]) {
        let Seated {
            start,
            client,
            pokes,
        } = seated(random);
        lines.extend(pokes);
        lines.push(start.line());
        talk(client, random, lines);
    }
}

/// Calls in states to which 3 applies, mostly in one way alone.
fn out_of_shape(random: &mut Random, lines: &mut Vec<String>) {
    lend(random, lines);
    for _ in 0..random.between(1, 4) {
        let Seated {
            mut start,
            client,
            pokes,
        } = seated(random);
        lines.extend(pokes);
        let way = random.below(WAYS);
        lines.extend(break_shape(&mut start, way, random));
        match random.below(20) {
            0..=2 => {
                let more = random.below(WAYS);
                lines.extend(break_shape(&mut start, more, random));
            }
            3 => break_count(&mut start, random),
            _ => {}
        }
        lines.push(start.line());
        calls(&client, random, lines);
        if way >= WAYS - 2 && random.percent(50) {
            lines.push(heal());
            calls(&client, random, lines);
        }
    }
    if random.percent(30) {
        let Seated {
            start,
            client,
            pokes,
        } = seated(random);
        lines.extend(pokes);
        lines.push(start.line());
        talk(client, random, lines);
    }
}

/// Calls in states whose count is wrong and that are in shape otherwise; then in the
/// same state with the right count.
fn wrong_count(random: &mut Random, lines: &mut Vec<String>) {
    lend(random, lines);
    for _ in 0..random.between(1, 3) {
        let Seated {
            start,
            client,
            pokes,
        } = seated(random);
        lines.extend(pokes);
        for _ in 0..random.between(1, 3) {
            let mut wrong = start.clone();
            break_count(&mut wrong, random);
            lines.push(wrong.line());
            lines.extend(["active".to_string(), row(random)]);
            calls(&client, random, lines);
            let id = client.requests.first().map_or(7, |request| request.id);
            lines.push(format!("finish {id}"));
        }
        lines.push(start.line());
        talk(client, random, lines);
    }
}

/// A few calls that do not expect anything.
fn calls(client: &Client, random: &mut Random, lines: &mut Vec<String>) {
    for _ in 0..random.between(1, 4) {
        let output = random.pick(&[0, LEAST_OUTPUT - 1, LEAST_OUTPUT, LEAST_OUTPUT + 4900]);
        let stream = client.address(random);
        let id = client.idle_id(random);
        let input = frame(id, stream, 0x11, b"\xa2\x44name\x43set\x44args\xa0");
        let end = random.below(input.len() + 1);
        lines.push(feed(output, &input[..end]));
        let held = client.requests.iter().map(|request| request.id);
        for id in held.chain([0, 2, 7]) {
            if random.percent(30) {
                lines.push(format!("finish {id}"));
            }
        }
        let looks = ["state", "tail", "worksum", "active"];
        lines.push(random.pick(&looks).to_string());
        lines.push(row(random));
    }
}

/// A work area that is too short, in states in shape and out of it.
fn short_area(random: &mut Random, lines: &mut Vec<String>) {
    let length = random.pick(&[0, 1, 7, 8, PARTS, WORK - 1, WORK - 1]);
    lines.push(format!("fresh {length} {}", random.below(256)));
    let fresh = Client::default();
    calls(&fresh, random, lines);
    let Seated {
        mut start, client, ..
    } = seated(random);
    if random.percent(50) {
        let way = random.below(WAYS);
        break_shape(&mut start, way, random);
    }
    lines.push(start.line());
    calls(&client, random, lines);
    let end = length.min(4);
    lines.push(format!("poke {} {}", length - end, hex(&[7; 4][..end])));
    calls(&client, random, lines);
}

/// Hundreds of steps, in which every id comes again and again.
fn long_talk(random: &mut Random, lines: &mut Vec<String>) {
    lend(random, lines);
    let mut client = Client::default();
    for _ in 0..random.between(150, 400) {
        client.act(random);
    }
    cut(client.steps, random, lines);
}

/// Data frames of the longest kind, of which several fill an output; at the end one
/// that claims too much, or the rest of a talk.
fn heavy_talk(random: &mut Random, lines: &mut Vec<String>) {
    lend(random, lines);
    let mut client = Client::default();
    let drains = random.percent(15);
    let phase = if drains {
        Phase::Draining
    } else {
        Phase::Waiting
    };
    let place = client.wait_for(random, phase);
    for _ in 0..random.between(2, 7) {
        let any = random.between(LONGEST_SENT + 1, LONGEST_PAYLOAD);
        let longest = LONGEST_PAYLOAD - random.pick(&[0, 0, 0, 1]);
        let count = random.pick(&[longest, longest, any, any, any, LONGEST_SENT, 2000]);
        let last = random.percent(5);
        client.send_data(place, count, last, random);
        if last {
            break;
        }
    }
    match random.below(4) {
        0 | 1 => refused::add(&mut client, random, 11),
        2 => client.act(random),
        _ => {}
    }
    match random.below(3) {
        0 | 1 => cut_large(client.steps, random, lines),
        _ => cut(client.steps, random, lines),
    }
}

/// The calls on lent command bytes.
fn lookups(seed: u64, index: u64, random: &mut Random, lines: &mut Vec<String>) {
    for turn in 0..random.between(12, 30) as u64 {
        let case = commands::case(seed, index * 30 + turn);
        let (command, key) = (hex(&case.command), hex(&case.key));
        let line = match random.below(7) {
            0 => format!("check {command}"),
            1 => format!("name {command}"),
            2 => format!("loose {command}"),
            3 | 4 => format!("arg {command} {key}"),
            _ => format!("int {command} {key}"),
        };
        lines.push(line);
    }
    lend(random, lines);
}

const UNREADABLE: [&str; 45] = [
    "fresh",
    "fresh 100001",
    "fresh 90000 256",
    "fresh 90000 0 0",
    "fresh  90000",
    "fresh x",
    "feed 5000",
    "feed 5000 0",
    "feed 5000 0A",
    "feed 5000 0g",
    "feed 300001 -",
    "feed 5000 00 ",
    " feed 5000 00",
    "feed",
    "finish",
    "finish 65536",
    "finish 1 1",
    "finish -1",
    "active 1",
    "row",
    "row 1001",
    "row -",
    "row 8 8",
    "poke 0 1",
    "poke 100000 00",
    "work 9 8",
    "work 0 100001",
    "state 0",
    "State",
    "worksums",
    "check 0",
    "arg 00",
    "loose",
    "loose 0g",
    "convert 9",
    "convert 300001 -",
    "convert 9 0",
    "whole",
    "whole 0g",
    "set 0 0 0:f:0:0 - 0",
    "set 256 0 0:f:0:0 0:f:0:0 0:f:0:0 0:f:0:0 0:f:0:0 0:f:0:0 0:f:0:0 0:f:0:0 - 0",
    "set 0 16777216 0:f:0:0 0:f:0:0 0:f:0:0 0:f:0:0 0:f:0:0 0:f:0:0 0:f:0:0 0:f:0:0 - 0",
    "set 0 0 1:e:1:0 0:f:0:0 0:f:0:0 0:f:0:0 0:f:0:0 0:f:0:0 0:f:0:0 0:f:0:0 - 1",
    "set 0 0 1:c:0:65536 0:f:0:0 0:f:0:0 0:f:0:0 0:f:0:0 0:f:0:0 0:f:0:0 0:f:0:0 - 1",
    "set 0 0 0:f:0:0 0:f:0:0 0:f:0:0 0:f:0:0 0:f:0:0 0:f:0:0 0:f:0:0 0:f:0:0 - 256",
];

/// Lines that cannot be read, between lines that can.
fn unreadable(random: &mut Random, lines: &mut Vec<String>) {
    lend(random, lines);
    let client = Client::default();
    for _ in 0..random.between(3, 12) {
        lines.push(random.pick(&UNREADABLE).to_string());
        if random.percent(30) {
            calls(&client, random, lines);
        }
        if random.percent(10) {
            lines.push(String::new());
        }
    }
    if random.percent(10) {
        // The longest line, and one that is too long.
        lines.push(format!("check {}", "0".repeat(LONGEST_LINE - 6)));
        lines.push(format!("check {}", "0".repeat(LONGEST_LINE - 4)));
    }
}

/// Bytes without any sense.
fn noise(random: &mut Random, lines: &mut Vec<String>) {
    lend(random, lines);
    for _ in 0..random.between(1, 5) {
        let count = random.pick(&[1, 7, 8, 9, 60]);
        let input: Vec<u8> = match random.below(2) {
            0 => random.bytes(count),
            _ => (0..count)
                .map(|_| random.pick(&[0, 0, 1, 1, 0x11, 0x92]))
                .collect(),
        };
        lines.push(feed(
            random.pick(&[LEAST_OUTPUT, LEAST_OUTPUT + 4900]),
            &input,
        ));
    }
}
