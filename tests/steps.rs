//! The archive's calls that compare logs, held to the second implementation: on logs that are lent whole, and on logs that
//! come in pieces. Every log and piece lies against a page that may not be touched, right before it or right behind it.
//!
//!     steps run SEED COUNT     on COUNT pairs of logs, in pieces of any sizes, and on the small ones of every size
//!     steps cuts               on a small pair that is cut at every byte of either log, in pieces of many sizes
//!     steps any SEED COUNT     with COUNT times any bytes as a state
//!     steps long               on bodies of 4,294,967,295 bytes

#[path = "steps/any.rs"]
mod any;
#[path = "steps/lent.rs"]
mod lent;
#[path = "steps/long.rs"]
mod long;
#[path = "steps/pieces.rs"]
mod pieces;

use generate::Random;
use pieces::{Pieces, Sizes};
use replay_lines::Edge;
use second::differences::compare;
use second::log::{read, NEW};
use std::process::exit;

const EDGES: [Edge; 2] = [Edge::Behind, Edge::Before];

/// Pairs of logs with no more bytes than this come in pieces of every size.
const SMALL: usize = 32;

/// Records of three bytes, of none, of one and of two. The logs differ in the last byte of the first record, in the kind of
/// the second, in the last byte of the fourth, and by a record more.
const FIRST: &[u8] = b"\x03\0\0\0\x01\0abc\0\0\0\0\x02\0\x01\0\0\0\xff\xffz\x02\0\0\0\x02\0hi";
const SECOND: &[u8] =
    b"\x03\0\0\0\x01\0abd\0\0\0\0\x02\x01\x01\0\0\0\xff\xffz\x02\0\0\0\x02\0ho\0\0\0\0\0\0";

/// The places behind the whole records of a log, and 0.
pub fn ends(log: &[u8]) -> Vec<usize> {
    let records = read(log, NEW).records;
    let mut ends = vec![0];
    for record in records {
        ends.push(ends[ends.len() - 1] + NEW + record.kind.len() + record.body.len());
    }
    ends
}

/// The whole records at the front of a log.
pub fn front(log: &[u8]) -> &[u8] {
    &log[..log.len() - read(log, NEW).broken.len()]
}

/// In pieces of each of these sizes on each side.
fn each_size(pieces: &mut [Pieces; 2], logs: [&[u8]; 2], sizes: [&[usize]; 2]) {
    for one in sizes[0] {
        for other in sizes[1] {
            for side in &mut *pieces {
                side.check(logs, Sizes::Each([*one, *other]));
            }
        }
    }
}

fn run(seed: u64, count: u64) {
    let mut pieces = EDGES.map(Pieces::new);
    let mut lent = EDGES.map(lent::Lent::new);
    let random = &mut Random::new(seed ^ 0x57e9);
    let (mut small, mut whole) = (0, 0);
    for index in 0..count {
        let pair = generate::pair(seed, index);
        let logs = [&pair.first[..], &pair.second];
        whole += u64::from(compare(logs[0], logs[1]).is_ok());
        for side in 0..2 {
            lent[side].check(logs, random);
            let longest = logs[0].len().max(logs[1].len());
            for most in [1, 8, 60, 70_000] {
                if longest <= 2_000 * most {
                    pieces[side].check(logs, Sizes::Any(random, most));
                }
            }
        }
        if logs.iter().all(|log| log.len() <= SMALL) {
            small += 1;
            let sizes = logs.map(|log| (1..=log.len() + 1).collect::<Vec<_>>());
            each_size(&mut pieces, logs, [&sizes[0], &sizes[1]]);
        }
    }
    if small < 100 || whole < 100 {
        fail(&format!(
            "of the pairs {small} only are small, {whole} only are whole"
        ));
    }
    let steps = pieces[0].steps + pieces[1].steps;
    println!("steps: {count} pairs lent and in pieces, {small} of them in pieces of every size, {steps} steps");
}

fn cuts() {
    const SIZES: [usize; 8] = [1, 2, 3, 5, 6, 7, 11, 99];
    let mut pieces = EDGES.map(Pieces::new);
    let mut lent = EDGES.map(lent::Lent::new);
    let random = &mut Random::new(7);
    let mut whole = 0;
    for first in 0..=FIRST.len() {
        for second in 0..=SECOND.len() {
            let logs = [&FIRST[..first], &SECOND[..second]];
            whole += u64::from(compare(logs[0], logs[1]).is_ok());
            lent.iter_mut().for_each(|side| side.check(logs, random));
            each_size(&mut pieces, logs, [&SIZES, &SIZES]);
        }
    }
    assert_eq!(whole, 5 * 6, "whole where a record ends");
    let all = [FIRST, SECOND].map(|log| (1..=log.len() + 1).collect::<Vec<_>>());
    each_size(&mut pieces, [FIRST, SECOND], [&all[0], &all[1]]);
    each_size(&mut pieces, [SECOND, FIRST], [&all[1], &all[0]]);
    each_size(&mut pieces, [FIRST, FIRST], [&all[0], &all[0]]);
    let steps = pieces[0].steps + pieces[1].steps;
    println!("steps: a pair cut at every byte of either log, {steps} steps");
}

pub fn fail(reason: &str) -> ! {
    println!("steps: {reason}");
    exit(1)
}

fn main() {
    let arguments: Vec<String> = std::env::args().skip(1).collect();
    let words: Vec<&str> = arguments.iter().map(String::as_str).collect();
    let number = |word: &str| word.parse().expect("a number");
    match words[..] {
        ["run", seed, count] => run(number(seed), number(count)),
        ["cuts"] => cuts(),
        ["any", seed, count] => any::run(number(seed), number(count)),
        ["long"] => long::run(),
        _ => fail("run SEED COUNT, cuts, any SEED COUNT or long"),
    }
}
