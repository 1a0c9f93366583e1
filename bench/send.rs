//! Times the archive's sending call beside the second sender and beside a plain
//! copy of the bytes that they write, which is the least that any sender does.
//!
//!     send                the table of times
//!     send rows|sides     how many rows there are, and the sides by name
//!     send once ROW SIDE  makes one call, for counting instructions

#[path = "../bindings/hgrpc.rs"]
mod hgrpc;

use hgrpc::SEND_SIZE_LONGEST as LARGEST;
use second::sender;
use std::hint::black_box;
use std::process::exit;
use std::time::{Duration, Instant};

const ROUNDS: usize = 9;
/// Of one round of one side.
const LEAST: Duration = Duration::from_millis(20);

// ---- the rows

/// A request, and what is written of it.
struct Row {
    what: &'static str,
    pairs: Vec<u8>,
    count: u64,
    size: usize,
    data: Option<Vec<u8>>,
    frames: Vec<u8>,
}

impl Row {
    fn new(what: &'static str, pairs: &[u8], count: u64, size: usize, data: usize) -> Row {
        let data = (data > 0).then(|| (0..data).map(|i| (i * 7 + i / 256) as u8).collect());
        let mut row = Row {
            what,
            pairs: pairs.to_vec(),
            count,
            size,
            data,
            frames: Vec::new(),
        };
        let mut room = vec![0; row.request().most().unwrap_or(0)];
        let written = second(&row, &mut room);
        row.frames = room[..written].to_vec();
        row
    }

    fn request(&self) -> hgrpc::Request<'_> {
        hgrpc::Request {
            id: 1,
            stream: 1,
            begin: true,
            end: true,
            size: self.size,
            name: b"set",
            pairs: &self.pairs,
            count: self.count,
            data: self.data.as_deref(),
        }
    }
}

fn rows() -> [Row; 6] {
    let string = |key: &[u8]| [key, b"\x58\x55", &[b'v'; 85]].concat();
    let strings = [string(b"\x44k000"), string(b"\x44k101")].concat();
    let long = [&b"\x44k000\x59\x07\xb2"[..], &[b'v'; 1970]].concat();
    [
        Row::new("64 KB of data, frames of 4,096", b"", 0, LARGEST, 65_536),
        Row::new("64 KB of data, frames of 256", b"", 0, 256, 65_536),
        Row::new("command of 16 bytes", b"", 0, LARGEST, 0),
        Row::new("command of 200 bytes, 2 byte strings", &strings, 2, LARGEST, 0),
        Row::new("command of 1,994 bytes, 1 byte string", &long, 1, LARGEST, 0),
        Row::new("the same in frames of 64", &long, 1, 64, 0),
    ]
}

// ---- the sides

type Side = fn(&Row, &mut [u8]) -> usize;

const SIDES: [(&str, Side); 3] = [("archive", archive), ("second", second), ("copy", copy)];

fn archive(row: &Row, out: &mut [u8]) -> usize {
    hgrpc::send(&row.request(), out).written
}

fn second(row: &Row, out: &mut [u8]) -> usize {
    let request = sender::Request {
        name: b"set",
        pairs: &row.pairs,
        count: row.count,
        id: 1,
        stream: 1,
        begin: true,
        end: true,
        size: row.size as u64,
        data: row.data.as_deref(),
    };
    sender::send(&request, out).written
}

/// In parts of a payload's length. A longer one is copied by a repeated
/// instruction, of which each turn is counted as one, so that its count says
/// nothing.
fn copy(row: &Row, out: &mut [u8]) -> usize {
    let parts = row.frames.chunks(LARGEST);
    for (place, part) in out.chunks_mut(LARGEST).zip(parts) {
        place[..part.len()].copy_from_slice(part);
    }
    row.frames.len()
}

/// Each side writes the same bytes, and no others.
fn verify(row: &Row) {
    for (name, side) in SIDES {
        let mut out = vec![0xa5; row.frames.len() + 9];
        let written = side(row, &mut out);
        let kept = out[row.frames.len()..].iter().all(|byte| *byte == 0xa5);
        if row.frames.is_empty() || out[..written] != row.frames || !kept {
            fail(&format!("{name} writes something else of: {}", row.what));
        }
    }
}

// ---- the times

fn time(side: Side, row: &Row, out: &mut [u8], loops: u32) -> Duration {
    let start = Instant::now();
    for _ in 0..loops {
        black_box(side(black_box(row), out));
        black_box(&mut *out);
    }
    start.elapsed()
}

/// The best nanoseconds of one call on each side. The rounds take turns, so
/// that a slow spell of the machine falls on all of them.
fn measure(row: &Row) -> [f64; SIDES.len()] {
    let mut out = vec![0; row.frames.len()];
    let loops = SIDES.map(|(_, side)| {
        let mut loops = 1;
        while time(side, row, &mut out, loops) < LEAST {
            loops *= 2;
        }
        loops
    });
    let mut best = [f64::MAX; SIDES.len()];
    for _ in 0..ROUNDS {
        for (place, (_, side)) in SIDES.into_iter().enumerate() {
            let all = time(side, row, &mut out, loops[place]);
            let one = all.as_secs_f64() * 1e9 / f64::from(loops[place]);
            best[place] = best[place].min(one);
        }
    }
    best
}

fn table() {
    println!(
        "{:<38}  {:>9}  {:>14}  {:>12}",
        "request", "archive ns", "second/archive", "archive/copy"
    );
    for row in rows() {
        verify(&row);
        let [archive, second, copy] = measure(&row);
        let (slower, ratio) = (second / archive, archive / copy);
        println!(
            "{:<38}  {archive:>10.0}  {slower:>14.2}  {ratio:>12.2}",
            row.what
        );
    }
}

/// Instructions are counted between this function's beginning and end.
#[no_mangle]
#[inline(never)]
fn counted(side: Side, row: &Row, out: &mut [u8]) -> usize {
    side(row, out)
}

/// The first call also resolves symbols.
fn once(row: &Row, side: Side) {
    let mut out = vec![0; row.frames.len()];
    side(row, &mut out);
    black_box(counted(black_box(side), row, &mut out));
    println!("{} {}", row.frames.len(), row.what);
}

fn fail(reason: &str) -> ! {
    eprintln!("send: {reason}");
    exit(1)
}

fn main() {
    let arguments: Vec<String> = std::env::args().skip(1).collect();
    let words: Vec<&str> = arguments.iter().map(String::as_str).collect();
    match words[..] {
        [] => table(),
        ["rows"] => println!("{}", rows().len()),
        ["sides"] => println!("{}", SIDES.map(|(name, _)| name).join(" ")),
        ["once", row, side] => {
            let place: Option<usize> = row.parse().ok();
            let row = place.and_then(|place| rows().into_iter().nth(place));
            let side = SIDES.into_iter().find(|(name, _)| *name == side);
            match (row, side) {
                (Some(row), Some((_, side))) => once(&row, side),
                _ => fail("no such row or side"),
            }
        }
        _ => fail("rows, sides or once ROW SIDE"),
    }
}
