//! What the program `receive` writes of a capture of the line. The bytes go
//! to the receiver one at a time, and a command is written from its tree.

use crate::frame::{BODY_HEAD, RECORD};
use crate::log;
use crate::receiver::Receiver;
use crate::replay::to_hex;
use crate::state::{State, WORK};
use crate::value::{read_whole, Value};

/// The lines of a capture. `words` says what a refusal number means.
pub fn lines(capture: &[u8], words: impl Fn(u8) -> String) -> String {
    let mut text = String::new();
    let end = walk(capture, |record| text += &record.line());
    match end {
        End::Refused { number, place } => {
            text + &format!("refused {number} at byte {place}: {}\n", words(number))
        }
        End::Inside(pending) => {
            text + &format!("the input ends inside a frame, after {pending} of its bytes\n")
        }
        End::Between => text,
    }
}

/// How a capture ends.
enum End {
    Refused {
        number: u8,
        place: usize,
    },
    /// Inside a frame, after so many of its bytes.
    Inside(u64),
    /// Between two frames.
    Between,
}

/// The records of a capture, one after another. A request that runs is
/// finished at once.
fn walk(capture: &[u8], mut each: impl FnMut(&Record)) -> End {
    let mut receiver = Receiver::start(State::fresh(), vec![0; WORK]);
    let mut output = vec![0; RECORD];
    for (place, byte) in capture.iter().enumerate() {
        let fed = receiver.feed(&[*byte], &mut output);
        if fed.number != 0 {
            let number = fed.number;
            return End::Refused { number, place };
        }
        if fed.written > 0 {
            let record = Record::read(&output[..fed.written]);
            each(&record);
            if record.is_last() {
                assert_eq!(receiver.finish(record.request), 0, "the request runs");
            }
        }
    }
    match receiver.state().pending {
        0 => End::Between,
        pending => End::Inside(pending),
    }
}

pub struct Record<'r> {
    pub is_command: bool,
    pub request: u16,
    /// The data bit of a command, the last bit of data.
    pub bit: u8,
    /// The mark of a command, 1 if it is written loosely; 0 of data.
    pub loose: u8,
    pub content: &'r [u8],
}

impl<'r> Record<'r> {
    /// Of the bytes of one record.
    pub fn read(record: &'r [u8]) -> Record<'r> {
        let log = log::read(record, log::NEW);
        assert_eq!((log.records.len(), log.broken.len()), (1, 0), "one record");
        let (head, content) = log.records[0].body.split_at(BODY_HEAD);
        Record {
            is_command: log.records[0].kind == [1, 0],
            request: u16::from_le_bytes([head[0], head[1]]),
            bit: head[2] % 2,
            loose: head[2] / 2,
            content,
        }
    }

    /// A command that no data follows, or the last data.
    pub fn is_last(&self) -> bool {
        self.is_command == (self.bit == 0)
    }

    fn line(&self) -> String {
        let (request, bit) = (self.request, self.bit);
        if !self.is_command {
            let (count, bytes) = (self.content.len(), byte_string(self.content));
            return format!("data {request} last {bit} {count} bytes {bytes}\n");
        }
        let Some(Value::Map(entries)) = read_whole(self.content) else {
            panic!("a command's record has a map");
        };
        let under = |key: &[u8]| {
            let mut found = entries.iter().filter(|entry| entry.0 == Value::Bytes(key));
            found.next().map(|entry| notation(&entry.1))
        };
        let name = under(b"name").expect("a command has a name");
        let args = under(b"args").unwrap_or_else(|| notation(&Value::Map(vec![])));
        let loose = self.loose;
        let mut line =
            format!("command {request} data {bit} loose {loose} name {name} args {args}");
        if let Some(redirect) = under(b"redirect") {
            line += &format!(" redirect {redirect}");
        }
        line + "\n"
    }
}

/// Text in single quotes (RFC 8610, appendix G.2) where no character of it has
/// to be escaped, hex elsewhere.
pub fn byte_string(bytes: &[u8]) -> String {
    let is_plain = |c: char| matches!(c, ' '..='~') && !matches!(c, '\'' | '\\');
    match std::str::from_utf8(bytes) {
        Ok(text) if text.chars().all(is_plain) => format!("'{text}'"),
        _ => format!("h'{}'", to_hex(bytes)),
    }
}

/// The diagnostic notation of RFC 7049, section 6.
fn notation(value: &Value) -> String {
    let list = |items: &[Value]| items.iter().map(notation).collect::<Vec<_>>().join(", ");
    match value {
        Value::Unsigned(n) => n.to_string(),
        Value::Negative(n) => (-1 - i128::from(*n)).to_string(),
        Value::Bytes(bytes) => byte_string(bytes),
        Value::Array(items) => format!("[{}]", list(items)),
        Value::Set(members) => format!("258([{}])", list(members)),
        Value::Map(entries) => {
            let pair = |(key, value): &(Value, Value)| notation(key) + ": " + &notation(value);
            let pairs: Vec<_> = entries.iter().map(pair).collect();
            format!("{{{}}}", pairs.join(", "))
        }
        Value::False => "false".to_string(),
        Value::True => "true".to_string(),
        Value::Null => "null".to_string(),
    }
}

#[cfg(test)]
mod tests {
    use super::*;

    /// RFC 7049, appendix A, those of the subset; and a set.
    #[test]
    fn published_notation() {
        let cases: [(&[u8], &str); 9] = [
            (
                b"\x1b\xff\xff\xff\xff\xff\xff\xff\xff",
                "18446744073709551615",
            ),
            (
                b"\x3b\xff\xff\xff\xff\xff\xff\xff\xff",
                "-18446744073709551616",
            ),
            (b"\x29", "-10"),
            (b"\xf4", "false"),
            (b"\xf6", "null"),
            (b"\x40", "''"),
            (b"\x44\x01\x02\x03\x04", "h'01020304'"),
            (b"\x83\x01\x82\x02\x03\x82\x04\x05", "[1, [2, 3], [4, 5]]"),
            (
                b"\xa2\x01\x02\x03\xd9\x01\x02\x81\x04",
                "{1: 2, 3: 258([4])}",
            ),
        ];
        for (bytes, text) in cases {
            let value = read_whole(bytes).expect("an item of the subset");
            assert_eq!(notation(&value), text);
        }
    }

    /// RFC 8610, appendix G.2; and the edges of what can stand in quotes.
    #[test]
    fn text_in_quotes() {
        let cases: [(&[u8], &str); 9] = [
            (b"hello world", "'hello world'"),
            (b" ~", "' ~'"),
            (b"\"", "'\"'"),
            (b"it's", "h'69742773'"),
            (b"a\\b", "h'615c62'"),
            (b"a\x1f", "h'611f'"),
            (b"a\x7f", "h'617f'"),
            (b"\xc3\xbc", "h'c3bc'"),
            (b"\xff", "h'ff'"),
        ];
        for (bytes, text) in cases {
            assert_eq!(byte_string(bytes), text);
        }
    }

    /// T1, and a byte more.
    #[test]
    fn first_trace() {
        let t1 = b"\x10\0\0\x01\0\x01\x01\x11\xa2\x44name\x43set\x44args\xa0";
        let line = "command 1 data 0 loose 0 name 'set' args {}\n";
        assert_eq!(lines(t1, |_| String::new()), line);
        let more = [&t1[..], b"\0"].concat();
        let end = "the input ends inside a frame, after 1 of its bytes\n";
        assert_eq!(lines(&more, |_| String::new()), line.to_string() + end);
    }

    /// E5: T1's command in other heads, three times. Without data it runs and is
    /// finished, so that its id is free for the next; with data it runs after
    /// that.
    #[test]
    fn loose_commands() {
        let frame = |last: u8| {
            let header = [&b"\x12\0\0\x01\0\x01\x03"[..], &[last]].concat();
            [&header[..], b"\xb8\x02\x44name\x58\x03set\x44args\xa0"].concat()
        };
        let data = b"\x02\0\0\x01\0\x01\x03\x22hi".to_vec();
        let capture = [frame(0x11), frame(0x19), data, frame(0x11)].concat();
        let wanted = "command 1 data 0 loose 1 name 'set' args {}\n\
            command 1 data 1 loose 1 name 'set' args {}\n\
            data 1 last 1 2 bytes 'hi'\n\
            command 1 data 0 loose 1 name 'set' args {}\n";
        assert_eq!(lines(&capture, |_| String::new()), wanted);
    }
}
