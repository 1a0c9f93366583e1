//! Writes the frames of one request to standard output, from words. From the
//! repository's folder, with the archive made by `./build hgrpc`:
//!
//!     rustc --edition 2021 -O -L native=target/staticlib -l static=hgrpc examples/send.rs -o target/send
//!     target/send set coil=3 on=true | target/bin/receive

#[path = "../bindings/hgrpc.rs"]
mod hgrpc;

use hgrpc::{Request, Sent, SEND_SIZE_LONGEST};
use std::ffi::OsString;
use std::fs;
use std::io::{stdin, stdout, ErrorKind, Read, Write};
use std::os::unix::ffi::OsStringExt;
use std::process::exit;

const HELP: &str = "send [OPTION].. NAME [KEY=VALUE]..

Writes the frames of one request to standard output: the command NAME with these arguments, and data if some is asked for.
A VALUE is an integer from -2^64 to 2^64-1, or true, false or null; anything else is a byte string. 'WORD' is the byte string WORD,
whatever it looks like, and h'HEX' the bytes that it spells. Options:

--request ID   the request id, odd; 1 if left out
--stream ID    the stream, odd; 1 if left out
--size BYTES   the payload of a full frame, 1 to 4096; 4096 if left out
--data FILE    the file's bytes follow as data; - is standard input
--no-begin     the stream is open already: the first frame does not begin it
--no-end       the stream stays open: the last frame does not end it
--             what follows is no option

For example: send set coil=3 on=true | receive
";

/// The words of a refusal.
fn meaning(number: u32) -> &'static str {
    match number {
        50 => "an even request or stream id",
        51 => "a size outside the range",
        52 => "a command the check would refuse",
        53 => "a command over 2,048 bytes",
        54 => "output too short for the exact total",
        _ => "a number that send does not have",
    }
}

fn fail(reason: &str) -> ! {
    eprintln!("send: {reason}");
    exit(1)
}

fn write(bytes: &[u8]) {
    let mut output = stdout().lock();
    let written = output.write_all(bytes);
    if written.and_then(|()| output.flush()).is_err() {
        fail("the output cannot be written");
    }
}

/// What the words ask for.
struct Asked {
    id: u16,
    stream: u8,
    begin: bool,
    end: bool,
    size: usize,
    data: Option<Vec<u8>>,
    /// The name, and the arguments.
    words: Vec<Vec<u8>>,
}

/// Bytes as one line shows them.
fn shown(bytes: &[u8]) -> String {
    let text = String::from_utf8_lossy(bytes);
    let signs = text.chars().map(|sign| match sign.is_control() {
        true => sign.escape_default().to_string(),
        false => sign.to_string(),
    });
    signs.collect()
}

/// The number behind an option. `kind` says which it takes, up to `most`.
fn number(option: &str, word: &[u8], kind: &str, most: usize) -> usize {
    let text = std::str::from_utf8(word).ok();
    let digits = text.filter(|text| text.bytes().all(|byte| byte.is_ascii_digit()));
    let number = digits.and_then(|text| text.parse().ok());
    let taken =
        |number: &usize| (1..=most).contains(number) && (kind == "number" || number % 2 == 1);
    number.filter(taken).unwrap_or_else(|| {
        let word = shown(word);
        fail(&format!("{option} {word}: no {kind} from 1 to {most}"))
    })
}

/// The bytes of a file, or of standard input.
fn read(name: Vec<u8>) -> Vec<u8> {
    let mut bytes = Vec::new();
    let text = shown(&name);
    let read = match &name[..] {
        b"-" => stdin().read_to_end(&mut bytes).map(|_| bytes),
        _ => fs::read(OsString::from_vec(name)),
    };
    read.unwrap_or_else(|error| {
        let reason = match error.kind() {
            ErrorKind::NotFound => "no such file".to_string(),
            ErrorKind::IsADirectory => "it is a folder".to_string(),
            _ => error.to_string(),
        };
        fail(&format!("--data {text}: cannot be read: {reason}"))
    })
}

fn asked(words: impl Iterator<Item = Vec<u8>>) -> Asked {
    let mut asked = Asked {
        id: 1,
        stream: 1,
        begin: true,
        end: true,
        size: SEND_SIZE_LONGEST,
        data: None,
        words: Vec::new(),
    };
    let mut words = words;
    while let Some(word) = words.next() {
        if !word.starts_with(b"--") {
            asked.words.push(word);
            continue;
        }
        let option = shown(&word);
        let mut next = || {
            let reason = format!("{option}: a word is missing behind it");
            words.next().unwrap_or_else(|| fail(&reason))
        };
        match &word[..] {
            b"--request" => asked.id = number(&option, &next(), "odd number", 65_535) as u16,
            b"--stream" => asked.stream = number(&option, &next(), "odd number", 255) as u8,
            b"--size" => asked.size = number(&option, &next(), "number", SEND_SIZE_LONGEST),
            b"--data" => asked.data = Some(read(next())),
            b"--no-begin" => asked.begin = false,
            b"--no-end" => asked.end = false,
            b"--" => asked.words.extend(words.by_ref()),
            b"--help" => {
                write(HELP.as_bytes());
                exit(0);
            }
            _ => fail(&format!(
                "{option}: unknown option; send --help says what there is"
            )),
        }
    }
    asked
}

/// The shortest head of a CBOR item.
fn head(major: u8, number: u64) -> Vec<u8> {
    let bytes = number.to_be_bytes();
    let (info, width) = match number {
        0..=23 => (number as u8, 0),
        24..=0xff => (24, 1),
        0x100..=0xffff => (25, 2),
        0x1_0000..=0xffff_ffff => (26, 4),
        _ => (27, 8),
    };
    [&[major << 5 | info], &bytes[8 - width..]].concat()
}

fn byte_string(content: &[u8]) -> Vec<u8> {
    [&head(2, content.len() as u64), content].concat()
}

/// The item of an integer, and None for one outside the range.
fn integer(negative: bool, digits: &str) -> Option<Vec<u8>> {
    let size: u128 = digits.parse().ok()?;
    match (negative, size) {
        (true, 1..) => Some(head(1, u64::try_from(size - 1).ok()?)),
        _ => Some(head(0, u64::try_from(size).ok()?)),
    }
}

/// The bytes that an even number of hex digits spells.
fn from_hex(digits: &[u8]) -> Option<Vec<u8>> {
    let digit = |byte: &u8| char::from(*byte).to_digit(16);
    let spelled: Option<Vec<u32>> = digits.iter().map(digit).collect();
    let pairs = spelled.filter(|spelled| spelled.len() % 2 == 0)?;
    let bytes = pairs.chunks(2).map(|pair| (pair[0] << 4 | pair[1]) as u8);
    Some(bytes.collect())
}

/// The CBOR item of a value, or what is wrong with it.
fn value(word: &[u8]) -> Result<Vec<u8>, &'static str> {
    match word {
        b"false" => return Ok(vec![0xf4]),
        b"true" => return Ok(vec![0xf5]),
        b"null" => return Ok(vec![0xf6]),
        [b'h', b'\'', digits @ .., b'\''] => {
            let bytes = from_hex(digits).ok_or("no even number of hex digits in the quotes")?;
            return Ok(byte_string(&bytes));
        }
        [b'\'', content @ .., b'\''] => return Ok(byte_string(content)),
        _ => {}
    }
    let (negative, digits) = match word.strip_prefix(b"-") {
        Some(digits) => (true, digits),
        None => (false, word),
    };
    if digits.is_empty() || !digits.iter().all(u8::is_ascii_digit) {
        return Ok(byte_string(word));
    }
    let digits = std::str::from_utf8(digits).expect("digits are text");
    integer(negative, digits).ok_or("the integer is outside -2^64 to 2^64-1")
}

/// The pairs of the arguments, one behind the other.
fn pairs(words: &[Vec<u8>]) -> Vec<u8> {
    let mut pairs = Vec::new();
    let mut keys: Vec<&[u8]> = Vec::new();
    for word in words {
        let wrong = |reason: &str| -> ! { fail(&format!("{}: {reason}", shown(word))) };
        let Some(at) = word.iter().position(|byte| *byte == b'=') else {
            wrong("no `=`; an argument is KEY=VALUE");
        };
        let key = &word[..at];
        if key.is_empty() {
            wrong("the key is empty");
        }
        if keys.contains(&key) {
            wrong("the key stands twice");
        }
        keys.push(key);
        pairs.extend(byte_string(key));
        match value(&word[at + 1..]) {
            Ok(item) => pairs.extend(item),
            Err(reason) => wrong(reason),
        }
    }
    pairs
}

fn main() {
    let asked = asked(std::env::args_os().skip(1).map(OsString::into_vec));
    let Some((name, arguments)) = asked.words.split_first() else {
        fail("no command is named; send --help says how");
    };
    if !(1..=64).contains(&name.len()) {
        let length = name.len();
        fail(&format!("the name has {length} bytes; it may have 1 to 64"));
    }
    let pairs = pairs(arguments);
    let request = Request {
        id: asked.id,
        stream: asked.stream,
        begin: asked.begin,
        end: asked.end,
        size: asked.size,
        name,
        pairs: &pairs,
        count: arguments.len() as u64,
        data: asked.data.as_deref(),
    };
    let Some(most) = request.most() else {
        fail("the data is too long");
    };
    let mut frames = vec![0; most];
    let Sent { number, written } = hgrpc::send(&request, &mut frames);
    if number != 0 {
        fail(&format!("refused {number}: {}", meaning(number)));
    }
    write(&frames[..written]);
}
