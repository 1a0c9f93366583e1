//! Lines of `replay`, damaged.

use crate::boards::board_step;
use crate::logs::conversion;
use crate::pairs::pair;
use crate::random::Random;
use crate::sends::sending;
use crate::sessions::session;
use crate::sizes::LONGEST_LINE;

/// The lines of a session, of a few requests to be sent, of a few commands for a
/// board and of a few stored logs and pairs of logs, of which every third or so is
/// damaged, and between them lines of any bytes.
pub fn garbled(seed: u64, index: u64) -> Vec<u8> {
    let start = Random::new(seed ^ 0x6a5b).next() ^ Random::new(!index).next();
    let random = &mut Random::new(start);
    let mut text = Vec::new();
    let sends = (6 * index..6 * index + 6).map(|index| sending(seed, index).line());
    let short = sends.filter(|line| line.len() < 10_000);
    let looked = short.flat_map(|line| [line, "tail".to_string()]);
    let steps = (3 * index..3 * index + 3).flat_map(|index| board_step(seed, index).lines());
    let boards = steps.flat_map(|line| {
        let other = |call: &str| line.replace("board ", call);
        [other("count "), other("loose "), line]
    });
    let logs = (3 * index..3 * index + 3).flat_map(|index| conversion(seed, index).lines());
    let pairs = (2 * index..2 * index + 2).map(|index| pair(seed, index).line());
    let logs = logs.chain(pairs).filter(|line| line.len() < 10_000);
    let session = session(seed, index).into_iter();
    for line in session.chain(looked).chain(boards).chain(logs) {
        if line.starts_with("set ") && random.percent(30) {
            text.extend(too_wide(&line, random).into_bytes());
            text.push(b'\n');
        }
        let mut line = line.into_bytes();
        while random.percent(30) {
            damage(&mut line, random);
        }
        text.extend(line);
        text.push(b'\n');
        if random.percent(8) {
            text.extend(noise(random));
            text.push(b'\n');
        }
    }
    if random.percent(2) {
        text.extend(long(random));
        text.push(b'\n');
    }
    text.extend(b"state\nworksum\nboard\nactive\nrow 9\n");
    text
}

fn damage(line: &mut Vec<u8>, random: &mut Random) {
    let place = random.below(line.len() + 1);
    let there = place < line.len();
    match random.below(8) {
        0 if there => line[place] = random.byte(),
        1 if there => line[place] ^= 1 << random.below(8),
        2 if there => {
            line.remove(place);
        }
        3 if there => line[place] = line[place].to_ascii_uppercase(),
        4 => line.insert(place, random.byte()),
        5 => line.insert(place, random.pick(b" -:,0#\r\0")),
        6 => line.truncate(place),
        _ => number(line, random),
    }
}

/// Another number in the place of one.
fn number(line: &mut Vec<u8>, random: &mut Random) {
    let text = String::from_utf8_lossy(line).into_owned();
    let mut words: Vec<&str> = text.split(' ').collect();
    let place = random.below(words.len());
    words[place] = random.pick(&[
        "",
        "0",
        "00000000000000000000000000007",
        "-1",
        "+1",
        "255",
        "256",
        "1000",
        "1001",
        "65535",
        "65536",
        "100000",
        "100001",
        "300000",
        "300001",
        "16777215",
        "16777216",
        "18446744073709551615",
        "18446744073709551616",
        "99999999999999999999999999",
    ]);
    *line = words.join(" ").into_bytes();
}

/// A line `set` with one number that does not fit its field. The streams, before
/// the count, are no number.
fn too_wide(line: &str, random: &mut Random) -> String {
    let mut words: Vec<String> = line.split(' ').map(String::from).collect();
    let count = words.len() - 1;
    let place = match random.below(4) {
        0 => count,
        1 => 2,
        _ => random.between(1, count - 2),
    };
    let number = if place == 1 || place == count {
        random.pick(&["256", "65536"])
    } else if place == 2 {
        random.pick(&["16777216", "16777217", "4294967296", "18446744073709551616"])
    } else {
        random.pick(&["65536", "65537", "4294967296", "18446744073709551616"])
    };
    let mut parts: Vec<&str> = words[place].split(':').collect();
    let last = parts.len() - 1;
    parts[random.pick(&[0, last])] = number;
    words[place] = parts.join(":");
    words.join(" ")
}

fn noise(random: &mut Random) -> Vec<u8> {
    let count = random.below(40);
    if random.percent(50) {
        return random.bytes(count);
    }
    let signs =
        b"0123456789abcdef fresh set feed poke send none state board count loose active row convert whole compare -:,#";
    (0..count).map(|_| random.pick(signs)).collect()
}

/// About as long as the longest line, or far longer.
fn long(random: &mut Random) -> Vec<u8> {
    let word = random.pick::<&[u8]>(&[
        b"check ",
        b"board ",
        b"feed 70000 ",
        b"convert 70000 ",
        b"whole ",
        b"compare - ",
        b"poke 0 ",
        b"send 9 61 0 - 1 1 0 0 9 ",
        b"# ",
        b"",
    ]);
    let count = match random.below(4) {
        0 => 3 * LONGEST_LINE,
        _ => LONGEST_LINE - word.len() - 2 + random.below(5),
    };
    let mut line = word.to_vec();
    line.extend(std::iter::repeat_n(b'0', count));
    line
}
