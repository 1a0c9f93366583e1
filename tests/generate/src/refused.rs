//! Frames that the receiver refuses, by the rule that they break first.

use crate::client::{
    command_of, frame, identity, Client, Phase, Step, BEGINS, COMMAND, CONTINUATION, DATA, MORE,
    NEW, SETTINGS, WITH_DATA,
};
use crate::commands;
use crate::item;
use crate::random::Random;
use crate::sizes::{FRAME_HEAD, LONGEST_COMMAND, LONGEST_PAYLOAD, LONGEST_SENT, SLOTS};

/// What may stand in place of the settings' byte string.
const NOT_IDENTITY: [&[u8]; 17] = [
    b"",
    b"\x40",
    b"\x44zlib",
    b"identity",
    b"\x47identit",
    b"\x48identit",
    b"\x48identitx",
    b"\x48Identity",
    b"\x48identity\0",
    b"\x49identity",
    b"\x49identity\0",
    b"\x68identity",
    b"\x81\x48identity",
    b"\x5f\x48identity\xff",
    b"\x5c\x08identity",
    b"\x59\x08identity",
    b"\x5b\xff\xff\xff\xff\xff\xff\xff\x08identity",
];

/// Adds good steps until the rule can be broken, then a frame that breaks
/// it, now and then together with others.
pub fn add(client: &mut Client, random: &mut Random, number: u8) {
    let mut bytes = match number {
        11 => too_long(client, random),
        12..=18 => {
            let (mut bytes, _) = client.next_frame(random, |bytes| match number {
                16 => bytes[6] & BEGINS != 0,
                17 => bytes[6] & BEGINS == 0,
                _ => true,
            });
            spoil(&mut bytes, number, random);
            bytes
        }
        19 => new_of_active(client, random),
        20 => ninth(client, random),
        21 => continuation_of_other(client, random),
        22 => other_data_bit(client, random),
        23 => over_long(client, random),
        24..=26 => faulty_command(client, random, number),
        27 => data_of_other(client, random),
        28 => settings_in_mid_stream(client, random),
        _ => {
            let payload = random.pick(&NOT_IDENTITY);
            settings(client, random, payload)
        }
    };
    while random.percent(20) {
        let more = random.between(12, 18) as u8;
        spoil(&mut bytes, more, random);
    }
    client.steps.push(Step::Frame { bytes, record: 0 });
}

/// The same of a frame that is refused for a request that drains, or for one whose drain
/// has just ended.
pub fn add_for_drain(client: &mut Client, random: &mut Random) {
    let id = draining_id(client, random);
    let bytes = match random.below(4) {
        0 => new_of(client, random, id),
        1 => ninth(client, random),
        2 => continuation_of(client, random, id),
        _ => {
            let id = drained_id(client, random);
            data_of(client, random, id)
        }
    };
    client.steps.push(Step::Frame { bytes, record: 0 });
}

/// Breaks one of the rules 12 to 18 in the header of a good frame.
fn spoil(bytes: &mut [u8], number: u8, random: &mut Random) {
    match number {
        12 => bytes[3] &= 0xfe,
        13 => bytes[5] &= 0xfe,
        14 => bytes[6] |= 8 << random.below(5),
        15 => {
            let kind = random.pick(&[0, 3, 4, 5, 6, 7, 8, 10, 11, 15]);
            bytes[7] = kind << 4 | bytes[7] & 15;
        }
        16 | 17 => bytes[6] ^= BEGINS,
        _ => {
            let flags: &[u8] = match bytes[7] >> 4 {
                COMMAND => &[0, 3, 4, 7, 8, 11, 12, 15],
                DATA => &[0, 3, 4, 5, 6, 8, 9, 10, 15],
                _ => &[0, 1, 3, 4, 6, 8, 10, 15],
            };
            bytes[7] = bytes[7] & 0xf0 | random.pick(flags);
        }
    }
}

/// At times nothing stands behind the eighth byte, on which it is judged.
fn too_long(client: &mut Client, random: &mut Random) -> Vec<u8> {
    let (mut bytes, _) = client.next_frame(random, |_| true);
    let over = LONGEST_PAYLOAD as u32 + 1;
    let length = random.pick(&[over, over, over, over + 1, 2 * over, 0x10_0000, 0xff_ffff]);
    bytes[..3].copy_from_slice(&length.to_le_bytes()[..3]);
    if random.percent(40) {
        bytes.truncate(FRAME_HEAD);
    }
    bytes
}

fn command(client: &Client, random: &mut Random, id: u16, flags: u8, payload: &[u8]) -> Vec<u8> {
    let stream = client.address(random);
    frame(id, stream, COMMAND << 4 | flags, payload)
}

/// Flags that a command frame may have beside new or continuation.
fn other_flags(random: &mut Random) -> u8 {
    random.pick(&[0, MORE, WITH_DATA, MORE | WITH_DATA])
}

const SHORT: &[u8] = b"\xa2\x44name\x43set\x44args\xa0";

/// An id that drains is active too.
fn new_of_active(client: &mut Client, random: &mut Random) -> Vec<u8> {
    let id = match random.percent(40) {
        true => draining_id(client, random),
        false => active_id(client, random),
    };
    new_of(client, random, id)
}

fn new_of(client: &Client, random: &mut Random, id: u16) -> Vec<u8> {
    let flags = NEW | other_flags(random);
    command(client, random, id, flags, SHORT)
}

fn active_id(client: &mut Client, random: &mut Random) -> u16 {
    loop {
        if let Some(place) = client.some(random, None) {
            return client.requests[place].id;
        }
        client.begin(random);
    }
}

fn draining_id(client: &mut Client, random: &mut Random) -> u16 {
    let place = client.wait_for(random, Phase::Draining);
    client.requests[place].id
}

/// An id whose drain has just ended.
fn drained_id(client: &mut Client, random: &mut Random) -> u16 {
    let place = client.wait_for(random, Phase::Draining);
    client.end_drain(place, random)
}

/// A ninth open request. Half the time the client finishes one first, and half the
/// time one of the eight drains.
fn ninth(client: &mut Client, random: &mut Random) -> Vec<u8> {
    if random.percent(50) {
        client.wait_for(random, Phase::Draining);
    }
    while client.begin(random) {}
    if random.percent(50) && client.finish(random) {
        client.begin(random);
    }
    let id = client.idle_id(random);
    new_of(client, random, id)
}

/// An id that no request has, or one in a phase other than these.
fn id_in_other_phase(client: &Client, random: &mut Random, phases: &[Phase]) -> u16 {
    let held = client.requests.iter();
    let others = held.filter(|held| !phases.contains(&held.phase));
    let ids: Vec<u16> = others.map(|held| held.id).collect();
    if ids.is_empty() || random.percent(30) {
        client.idle_id(random)
    } else {
        random.pick(&ids)
    }
}

fn continuation_of_other(client: &mut Client, random: &mut Random) -> Vec<u8> {
    let id = match random.percent(30) {
        true => draining_id(client, random),
        false => id_in_other_phase(client, random, &[Phase::Collecting]),
    };
    continuation_of(client, random, id)
}

fn continuation_of(client: &Client, random: &mut Random, id: u16) -> Vec<u8> {
    let flags = CONTINUATION | other_flags(random);
    command(client, random, id, flags, SHORT)
}

fn other_data_bit(client: &mut Client, random: &mut Random) -> Vec<u8> {
    let place = client.wait_for(random, Phase::Collecting);
    let held = &client.requests[place];
    let (id, rest) = (held.id, held.command[held.sent..].to_vec());
    let data = if held.data { 0 } else { WITH_DATA };
    let flags = CONTINUATION | data | random.pick(&[0, MORE]);
    command(client, random, id, flags, &rest)
}

/// One frame with too much, or a piece too many. But for its length the
/// command is good.
fn over_long(client: &mut Client, random: &mut Random) -> Vec<u8> {
    let length = match random.below(20) {
        0..=9 => LONGEST_COMMAND + 1,
        10..=14 => LONGEST_COMMAND + 2,
        15..=18 => LONGEST_SENT,
        _ => LONGEST_PAYLOAD,
    };
    let long = command_of(length, random);
    if random.percent(40) {
        let id = client.idle_id(random);
        let flags = NEW | other_flags(random);
        return command(client, random, id, flags, &long);
    }
    free_slot(client, random);
    let first = random.between(1, LONGEST_COMMAND);
    let id = client.idle_id(random);
    client.begin_with(id, long[..first].to_vec(), 2, random);
    let held = client.requests.last().expect("it has just begun");
    let rest = &long[held.sent..];
    let data = if held.data { WITH_DATA } else { 0 };
    let flags = CONTINUATION | data | random.pick(&[0, MORE]);
    command(client, random, held.id, flags, rest)
}

/// In one frame or in several, of which the last is refused.
fn faulty_command(client: &mut Client, random: &mut Random, number: u8) -> Vec<u8> {
    let mut bytes = commands::faulty(random, number);
    if number == 24 {
        match random.below(8) {
            0 => bytes.clear(),
            1 => bytes.push(0),
            2 => {
                bytes.pop();
            }
            3 => bytes = nine_levels(random),
            _ => {}
        }
    }
    bytes.truncate(LONGEST_COMMAND);
    free_slot(client, random);
    let frames = random.pick(&[1, 1, 2, 3]);
    let id = client.idle_id(random);
    client.begin_with(id, bytes, frames, random);
    let place = client.requests.len() - 1;
    while client.requests[place].phase == Phase::Collecting {
        client.piece(place, CONTINUATION, random);
    }
    match client.steps.pop() {
        Some(Step::Frame { bytes, .. }) => bytes,
        _ => unreachable!("the last step is the command's last frame"),
    }
}

/// The outer map and `args` are the first two.
fn nine_levels(random: &mut Random) -> Vec<u8> {
    let nested = item::nested(random, 7);
    let value = item::write(&nested, random, 10);
    [b"\xa2\x44name\x43set\x44args\xa1\x41k", &value[..]].concat()
}

fn free_slot(client: &mut Client, random: &mut Random) {
    while client.requests.len() == SLOTS {
        client.act(random);
    }
}

fn data_of_other(client: &mut Client, random: &mut Random) -> Vec<u8> {
    let id = match random.percent(40) {
        true => drained_id(client, random),
        false => id_in_other_phase(client, random, &[Phase::Waiting, Phase::Draining]),
    };
    data_of(client, random, id)
}

fn data_of(client: &Client, random: &mut Random, id: u16) -> Vec<u8> {
    let stream = client.address(random);
    let count = random.pick(&[0, 1, 20]);
    let payload = random.bytes(count);
    frame(id, stream, DATA << 4 | random.pick(&[1, 2]), &payload)
}

fn settings_in_mid_stream(client: &mut Client, random: &mut Random) -> Vec<u8> {
    while client.open.is_empty() {
        client.act(random);
    }
    let open: Vec<u8> = client.open.iter().copied().collect();
    let stream = (random.pick(&open), random.pick(&[0, 2, 4, 6]));
    let payload = identity(random);
    frame(1, stream, SETTINGS << 4 | 2, &payload)
}

fn settings(client: &mut Client, random: &mut Random, payload: &[u8]) -> Vec<u8> {
    while client.closed().is_empty() {
        client.act(random);
    }
    let stream = random.pick(&client.closed());
    frame(3, (stream, BEGINS), SETTINGS << 4 | 2, payload)
}
