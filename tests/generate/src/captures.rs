//! Captures of the line: the bytes that a client sent, as `receive` reads
//! them.

use crate::client::{Client, Step};
use crate::random::Random;
use crate::sessions::troubled;

/// The capture of this seed and index. One in five ends anywhere.
pub fn capture(seed: u64, index: u64) -> Vec<u8> {
    let start = Random::new(seed ^ 0xca97).next() ^ Random::new(!index).next();
    let random = &mut Random::new(start);
    if random.percent(3) {
        let count = random.between(1, 60);
        return random.bytes(count);
    }
    let mut bytes = Vec::new();
    for step in troubled(Client::default(), random) {
        if let Step::Frame { bytes: frame, .. } = step {
            bytes.extend(frame);
        }
    }
    if random.percent(20) {
        let end = random.below(bytes.len() + 1);
        bytes.truncate(end);
    }
    bytes
}
