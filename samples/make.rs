// Makes the captures and the logs of this folder, and on standard output the capture that crates/receive is tested on:
//
//     rustc samples/make.rs --out-dir target && target/make samples >crates/receive/stdin
//
// A capture is the bytes of the line as clients sent them: frames, one after another. A log is the records that a board wrote of them.

use std::env;
use std::fs;
use std::io;
use std::io::Write;
use std::path::Path;

// Stream flags.
const NONE: u8 = 0x00;
const BEGIN: u8 = 0x01;
const END: u8 = 0x02;

// A frame's last header byte: its type and its flags.
const NEW: u8 = 0x11;
const NEW_MORE: u8 = 0x15;
const NEW_DATA: u8 = 0x19;
const NEW_MORE_DATA: u8 = 0x1d;
const REST: u8 = 0x12;
const REST_MORE: u8 = 0x16;
const REST_DATA: u8 = 0x1a;
const DATA_MORE: u8 = 0x21;
const DATA_LAST: u8 = 0x22;
const SETTINGS: u8 = 0x92;

fn frame(request: u16, stream: u8, stream_flags: u8, kind: u8, payload: &[u8]) -> Vec<u8> {
    let length = (payload.len() as u32).to_le_bytes();
    let mut f = length[..3].to_vec();
    f.extend(request.to_le_bytes());
    f.extend([stream, stream_flags, kind]);
    f.extend(payload);
    f
}

// ---- CBOR items, with the shortest heads

fn head(major: u8, n: u64) -> Vec<u8> {
    let wide = n.to_be_bytes();
    let (info, tail) = match n {
        0..=0x17 => (n as u8, &wide[8..]),
        0x18..=0xff => (24, &wide[7..]),
        0x100..=0xffff => (25, &wide[6..]),
        0x1_0000..=0xffff_ffff => (26, &wide[4..]),
        _ => (27, &wide[..]),
    };
    let mut h = vec![major << 5 | info];
    h.extend(tail);
    h
}

fn unsigned(n: u64) -> Vec<u8> {
    head(0, n)
}

// -1-n
fn negative(n: u64) -> Vec<u8> {
    head(1, n)
}

fn string(s: &str) -> Vec<u8> {
    bytes(s.as_bytes())
}

fn bytes(s: &[u8]) -> Vec<u8> {
    [head(2, s.len() as u64), s.to_vec()].concat()
}

fn array(items: &[Vec<u8>]) -> Vec<u8> {
    [head(4, items.len() as u64), items.concat()].concat()
}

fn map(pairs: &[(Vec<u8>, Vec<u8>)]) -> Vec<u8> {
    let mut m = head(5, pairs.len() as u64);
    for (key, value) in pairs {
        m.extend(key);
        m.extend(value);
    }
    m
}

fn set(items: &[Vec<u8>]) -> Vec<u8> {
    [head(6, 258), array(items)].concat()
}

fn no() -> Vec<u8> {
    vec![0xf4]
}

fn yes() -> Vec<u8> {
    vec![0xf5]
}

fn null() -> Vec<u8> {
    vec![0xf6]
}

fn command(name: &str, args: &[(&str, Vec<u8>)]) -> Vec<u8> {
    let args: Vec<_> = args.iter().map(|(k, v)| (string(k), v.clone())).collect();
    map(&[(string("name"), string(name)), (string("args"), map(&args))])
}

// The same item with each head in four bytes behind the first, where it is in the first byte alone. False, true and null stay.
fn loosely(item: &[u8]) -> Vec<u8> {
    let mut wide = Vec::new();
    let mut at = 0;
    while at < item.len() {
        let (major, number) = (item[at] >> 5, item[at] & 0x1f);
        assert!(number < 24, "the number is in the first byte");
        let content = if major == 2 { usize::from(number) } else { 0 };
        match major {
            7 => wide.push(item[at]),
            _ => wide.extend([major << 5 | 26, 0, 0, 0, number]),
        }
        wide.extend(&item[at + 1..][..content]);
        at += 1 + content;
    }
    wide
}

fn switch(magnet: u64, on: Vec<u8>) -> Vec<u8> {
    command("set", &[("magnet", unsigned(magnet)), ("on", on)])
}

// ---- the captures

// Two laptops at once, one on stream 1 and one on stream 3, with their frames in turn.
fn two_laptops() -> Vec<u8> {
    let points = command("points", &[("left", set(&[unsigned(3), unsigned(5)]))]);
    let upload = command("upload", &[("track", unsigned(7)), ("bytes", unsigned(6))]);
    [
        frame(1, 1, BEGIN, SETTINGS, &string("identity")),
        frame(3, 3, BEGIN, SETTINGS, &string("identity")),
        frame(1, 1, NONE, NEW_DATA, &upload),
        frame(3, 3, NONE, NEW_MORE, &points[..10]),
        frame(1, 1, NONE, DATA_MORE, b"slow"),
        frame(3, 3, NONE, REST, &points[10..]),
        frame(1, 1, END, DATA_LAST, b"er"),
        frame(3, 3, END, NEW, &switch(4, yes())),
    ]
    .concat()
}

fn set_coil(coil: u64, on: Vec<u8>) -> Vec<u8> {
    command("set", &[("coil", unsigned(coil)), ("on", on)])
}

fn label_coil(coil: u64, text: &str) -> Vec<u8> {
    command("label", &[("coil", unsigned(coil)), ("text", string(text))])
}

// Two laptops switch and label coils, one of them a coil that is not there; then all coils go off, and one on again.
fn coils() -> Vec<u8> {
    let shed = label_coil(15, "engine shed");
    let off = map(&[(string("name"), string("off"))]);
    [
        frame(1, 1, BEGIN, NEW, &set_coil(3, yes())),
        frame(11, 3, BEGIN, NEW_MORE, &shed[..20]),
        frame(3, 1, NONE, NEW, &label_coil(3, "north points")),
        frame(11, 3, NONE, REST, &shed[20..]),
        frame(13, 3, NONE, NEW, &set_coil(15, yes())),
        frame(5, 1, NONE, NEW, &set_coil(16, yes())),
        frame(15, 3, END, NEW, &off),
        frame(7, 1, END, NEW, &set_coil(3, yes())),
    ]
    .concat()
}

// One command in four frames: a cut lies inside a key, one between a head and its content, and one inside a number.
fn cut_command() -> Vec<u8> {
    let magnets = array(&[unsigned(1), unsigned(2), unsigned(1000)]);
    let whole = command("set", &[("magnets", magnets), ("force", negative(41))]);
    let (a, b, c) = (3, 17, 29);
    [
        frame(1, 1, BEGIN, NEW_MORE, &whole[..a]),
        frame(1, 1, NONE, REST_MORE, &whole[a..b]),
        frame(1, 1, NONE, REST_MORE, &whole[b..c]),
        frame(1, 1, END, REST, &whole[c..]),
    ]
    .concat()
}

// Two clubs send the same commands, the one on stream 1 in the shortest heads and the other on stream 3 in wider ones: one without data,
// for which the second uses id 3 twice, and one with data.
fn loose() -> Vec<u8> {
    let set = set_coil(3, yes());
    let upload = command("upload", &[("track", unsigned(7))]);
    [
        frame(1, 1, BEGIN, NEW, &set),
        frame(3, 3, BEGIN, NEW, &loosely(&set)),
        frame(3, 3, NONE, NEW, &loosely(&set)),
        frame(1, 1, NONE, NEW_DATA, &upload),
        frame(3, 3, NONE, NEW_DATA, &loosely(&upload)),
        frame(1, 1, END, DATA_LAST, b"slower"),
        frame(3, 3, END, DATA_LAST, b"slower"),
    ]
    .concat()
}

// The second command lost a byte on the line, its map's head: the frame ends with the first byte of the next one.
fn damaged() -> Vec<u8> {
    let mut broken = frame(3, 1, NONE, NEW, &switch(4, no()));
    broken.remove(8);
    [
        frame(1, 1, BEGIN, NEW, &switch(4, yes())),
        broken,
        frame(5, 1, END, NEW, &switch(4, yes())),
    ]
    .concat()
}

// ---- the logs

// A record's kind: a whole command, or data.
const COMMAND: u16 = 1;
const DATA: u16 = 2;

fn record(kind: u16, request: u16, bit: u8, bytes: &[u8]) -> Vec<u8> {
    let body = [&request.to_le_bytes(), &[bit][..], bytes].concat();
    [&(body.len() as u32).to_le_bytes(), &kind.to_le_bytes()[..], &body].concat()
}

// What a good board and a bad one wrote when two laptops asked for the same. The bad one read a data bit for the first command of id 3, which
// so waits; it cut a label short; it took the next command of id 3 for data; and it stopped before the last two.
fn logs() -> [Vec<u8>; 2] {
    let upload = command("upload", &[("track", unsigned(7))]);
    let off = map(&[(string("name"), string("off"))]);
    let good = [
        record(COMMAND, 1, 0, &set_coil(3, yes())),
        record(COMMAND, 3, 0, &set_coil(4, yes())),
        record(COMMAND, 1, 0, &label_coil(3, "north points")),
        record(COMMAND, 3, 0, &set_coil(4, no())),
        record(COMMAND, 1, 1, &upload),
        record(DATA, 1, 1, b"slower"),
        record(COMMAND, 1, 0, &off),
        record(COMMAND, 3, 0, &set_coil(15, yes())),
    ];
    let mut bad = good[..6].to_vec();
    bad[1] = record(COMMAND, 3, 1, &set_coil(4, yes()));
    bad[2] = record(COMMAND, 1, 0, &label_coil(3, "north"));
    bad[3] = record(DATA, 3, 0, &set_coil(4, no()));
    [good.concat(), bad.concat()]
}

// What crates/receive is tested on: trace T1, settings, a cut command with data and one of another request between its frames, an id
// used again, a value of each type, byte strings that can be shown as text and that cannot, and a command that is written loosely, first
// cut in its first head and without data, then with data.
fn test() -> Vec<u8> {
    let all = command(
        "put",
        &[
            ("a", unsigned(u64::MAX)),
            ("b", negative(u64::MAX)),
            ("c", set(&[unsigned(24), string(""), yes()])),
            ("d", map(&[(unsigned(1), map(&[])), (null(), array(&[]))])),
        ],
    );
    let few = command("set", &[("x", negative(0)), ("y", array(&[no(), null()]))]);
    let wide = loosely(&few);
    let edges: [&[u8]; 6] = [b" ~", b"it's", b"a\\b", b"a\x1f", b"a\x7f", b"\xc3\xbc"];
    let shown = command("log", &[("text", array(&edges.map(bytes)))]);
    let hashes = map(&[(string("hashes"), array(&[string("sha1")]))]);
    let moved = map(&[
        (string("redirect"), hashes),
        (string("args"), map(&[])),
        (string("name"), string("get")),
    ]);
    [
        frame(1, 1, BEGIN, NEW, &command("set", &[])),
        frame(3, 3, BEGIN, SETTINGS, &string("identity")),
        frame(3, 1, NONE, NEW_MORE_DATA, &all[..22]),
        frame(5, 3, NONE, NEW, &few),
        frame(3, 3, NONE, REST_DATA, &all[22..]),
        frame(3, 1, NONE, DATA_MORE, b""),
        frame(3, 1, END, DATA_LAST, b"hi"),
        frame(1, 1, BEGIN | END, NEW, &moved),
        frame(7, 1, BEGIN, NEW_DATA, &shown),
        frame(7, 1, END, DATA_LAST, b"a\nb"),
        frame(9, 1, BEGIN, NEW_MORE, &wide[..3]),
        frame(9, 1, NONE, REST, &wide[3..]),
        frame(9, 1, NONE, NEW_DATA, &wide),
        frame(9, 1, END, DATA_LAST, b""),
    ]
    .concat()
}

fn main() -> io::Result<()> {
    let folder = env::args().nth(1).expect("the folder to write into");
    let folder = Path::new(&folder);
    fs::write(folder.join("two-laptops.capture"), two_laptops())?;
    fs::write(folder.join("coils.capture"), coils())?;
    fs::write(folder.join("cut-command.capture"), cut_command())?;
    fs::write(folder.join("loose.capture"), loose())?;
    fs::write(folder.join("damaged.capture"), damaged())?;
    let [good, bad] = logs();
    fs::write(folder.join("good.log"), good)?;
    fs::write(folder.join("bad.log"), bad)?;
    io::stdout().write_all(&test())
}
