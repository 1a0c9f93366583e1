//! The sender of E2. The command is joined whole, then cut into frames, and
//! what the frames come to is compared with the output before a byte is
//! written.

use crate::command;
use crate::frame::{
    Frame, BEGINS, COMMAND, COMMAND_BYTES, CONTINUATION, DATA, ENDS, LAST_DATA, MORE, MORE_DATA,
    NEW, WITH_DATA,
};

/// The largest payload size. It is the sender's own: E7 lets the receiver take more.
pub const SIZE: u64 = 4096;

/// What is to be sent, and how.
#[derive(Clone, Debug)]
pub struct Request<'a> {
    pub name: &'a [u8],
    /// Keys and values in turn, each a CBOR item.
    pub pairs: &'a [u8],
    /// How many pairs there are to be.
    pub count: u64,
    pub id: u16,
    pub stream: u8,
    pub begin: bool,
    pub end: bool,
    /// The payload of a full frame.
    pub size: u64,
    pub data: Option<&'a [u8]>,
}

#[derive(Clone, Copy, Debug, PartialEq, Eq)]
pub struct Sent {
    pub number: u8,
    pub written: usize,
}

type Refused = fn(&Request) -> bool;

/// The refusals that do not ask for the output, in their order.
const REFUSALS: [(u8, Refused); 4] = [
    (50, |request| request.id % 2 == 0 || request.stream % 2 == 0),
    (51, |request| !(1..=SIZE).contains(&request.size)),
    (52, |request| command::check(&request.command()) != 0),
    (53, |request| request.command().len() > COMMAND_BYTES),
];

/// The shortest head of CBOR for a number.
fn head(major: u8, number: u64) -> Vec<u8> {
    let all = number.to_be_bytes();
    let (info, width) = match number {
        0..=23 => (number as u8, 0),
        24..=0xff => (24, 1),
        0x100..=0xffff => (25, 2),
        0x1_0000..=0xffff_ffff => (26, 4),
        _ => (27, 8),
    };
    [&[major << 5 | info], &all[8 - width..]].concat()
}

fn byte_string(content: &[u8]) -> Vec<u8> {
    [&head(2, content.len() as u64), content].concat()
}

impl Request<'_> {
    /// A map of `name` and `args`.
    pub fn command(&self) -> Vec<u8> {
        [
            &head(5, 2)[..],
            &byte_string(b"name"),
            &byte_string(self.name),
            &byte_string(b"args"),
            &head(5, self.count),
            self.pairs,
        ]
        .concat()
    }

    /// Bytes as payloads, all full but the last. No bytes are one payload.
    fn payloads<'b>(&self, bytes: &'b [u8]) -> Vec<&'b [u8]> {
        match bytes {
            [] => vec![bytes],
            _ => bytes.chunks(self.size as usize).collect(),
        }
    }

    /// The type and flags of each frame, and its payload.
    fn parts<'b>(&self, command: &'b [u8], data: Option<&'b [u8]>) -> Vec<(u8, u8, &'b [u8])> {
        let announced = if data.is_some() { WITH_DATA } else { 0 };
        let mut parts = Vec::new();
        let payloads = self.payloads(command);
        for (place, payload) in payloads.iter().enumerate() {
            let which = if place == 0 { NEW } else { CONTINUATION };
            let follows = if place + 1 < payloads.len() { MORE } else { 0 };
            parts.push((COMMAND, which | follows | announced, *payload));
        }
        if let Some(data) = data {
            let payloads = self.payloads(data);
            for (place, payload) in payloads.iter().enumerate() {
                let last = place + 1 == payloads.len();
                let flags = if last { LAST_DATA } else { MORE_DATA };
                parts.push((DATA, flags, *payload));
            }
        }
        parts
    }

    /// The frames of a request that none of the refusals above meets.
    fn frames(&self) -> Vec<Frame> {
        let command = self.command();
        let parts = self.parts(&command, self.data);
        let last = parts.len() - 1;
        let frame = |(place, (kind, flags, payload)): (usize, (u8, u8, &[u8]))| {
            let mut stream_flags = 0;
            if self.begin && place == 0 {
                stream_flags |= BEGINS;
            }
            if self.end && place == last {
                stream_flags |= ENDS;
            }
            Frame::write(
                self.id,
                self.stream,
                stream_flags,
                kind << 4 | flags,
                payload,
            )
        };
        parts.into_iter().enumerate().map(frame).collect()
    }
}

/// Writes the frames of a request, or refuses it.
pub fn send(request: &Request, output: &mut [u8]) -> Sent {
    let refused = REFUSALS.iter().find(|(_, refused)| refused(request));
    if let Some((number, _)) = refused {
        return Sent {
            number: *number,
            written: 0,
        };
    }
    let frames = request.frames();
    let total: usize = frames.iter().map(|frame| frame.bytes().len()).sum();
    if output.len() < total {
        return Sent {
            number: 54,
            written: 0,
        };
    }
    let mut place = 0;
    for frame in &frames {
        let bytes = frame.bytes();
        output[place..place + bytes.len()].copy_from_slice(bytes);
        place += bytes.len();
    }
    Sent {
        number: 0,
        written: place,
    }
}

#[cfg(test)]
mod tests {
    use super::*;

    const PLAIN: Request = Request {
        name: b"set",
        pairs: b"",
        count: 0,
        id: 1,
        stream: 1,
        begin: true,
        end: false,
        size: SIZE,
        data: None,
    };

    /// What is written to an output that is as long as asked for.
    fn written(request: &Request, length: usize) -> Result<Vec<u8>, u8> {
        let mut output = vec![0xa5; length];
        let sent = send(request, &mut output);
        assert!(output[sent.written..].iter().all(|byte| *byte == 0xa5));
        output.truncate(sent.written);
        match sent.number {
            0 => Ok(output),
            number => Err(number),
        }
    }

    /// T1's bytes.
    #[test]
    fn first_trace() {
        let frame = b"\x10\0\0\x01\0\x01\x01\x11\xa2\x44name\x43set\x44args\xa0";
        for length in [24, 25, 100] {
            assert_eq!(written(&PLAIN, length).as_deref(), Ok(&frame[..]));
        }
        assert_eq!(written(&PLAIN, 23), Err(54));
    }

    /// A command of 16 bytes in frames of 8, and data.
    #[test]
    fn several_frames() {
        let request = Request {
            size: 8,
            end: true,
            data: Some(b"ninebytes"),
            ..PLAIN
        };
        let frames = [
            &b"\x08\0\0\x01\0\x01\x01\x1d\xa2\x44name\x43s"[..],
            b"\x08\0\0\x01\0\x01\0\x1aet\x44args\xa0",
            b"\x08\0\0\x01\0\x01\0\x21ninebyte",
            b"\x01\0\0\x01\0\x01\x02\x22s",
        ];
        assert_eq!(written(&request, 57), Ok(frames.concat()));
        assert_eq!(written(&request, 56), Err(54));
        let full = Request {
            data: Some(b"ninebyte"),
            ..request.clone()
        };
        let ended = [frames[0], frames[1], b"\x08\0\0\x01\0\x01\x02\x22ninebyte"];
        assert_eq!(written(&full, 48), Ok(ended.concat()));
        let empty = Request {
            data: Some(b""),
            ..request
        };
        let ended = [frames[0], frames[1], b"\0\0\0\x01\0\x01\x02\x22"];
        assert_eq!(written(&empty, 40), Ok(ended.concat()));
    }

    #[test]
    fn shortest_heads() {
        for (number, bytes) in [
            (0, &b"\xa0"[..]),
            (23, b"\xb7"),
            (24, b"\xb8\x18"),
            (255, b"\xb8\xff"),
            (256, b"\xb9\x01\0"),
            (65_535, b"\xb9\xff\xff"),
            (65_536, b"\xba\0\x01\0\0"),
            (0xffff_ffff, b"\xba\xff\xff\xff\xff"),
            (0x1_0000_0000, b"\xbb\0\0\0\x01\0\0\0\0"),
            (u64::MAX, b"\xbb\xff\xff\xff\xff\xff\xff\xff\xff"),
        ] {
            assert_eq!(head(5, number), bytes);
        }
    }

    /// Each request has a reason for its number and for all above it.
    #[test]
    fn order() {
        let all = Request {
            name: b"",
            pairs: &[0; 3000],
            id: 2,
            stream: 1,
            size: 0,
            ..PLAIN
        };
        assert_eq!(written(&all, 0), Err(50));
        assert_eq!(
            written(
                &Request {
                    id: 1,
                    stream: 2,
                    ..all.clone()
                },
                0
            ),
            Err(50)
        );
        let size = Request { id: 1, ..all };
        assert_eq!(written(&size, 0), Err(51));
        assert_eq!(
            written(
                &Request {
                    size: SIZE + 1,
                    ..size.clone()
                },
                0
            ),
            Err(51)
        );
        let checked = Request { size: 1, ..size };
        assert_eq!(written(&checked, 0), Err(52));
        let pairs = [b"\x41k\x59\x0b\xb8", &[0; 3000][..]].concat();
        let long = Request {
            name: b"a",
            pairs: &pairs,
            count: 1,
            ..checked
        };
        assert_eq!(written(&long, 0), Err(53));
        assert_eq!(written(&Request { count: 2, ..long }, 0), Err(52));
    }

    /// Commands of 2,048 and of 2,049 bytes.
    #[test]
    fn longest_command() {
        let pairs = |length: usize| {
            let before = b"\xa2\x44name\x43set\x44args\xa1";
            let left = length - before.len() - 5;
            [
                &b"\x41k\x59"[..],
                &(left as u16).to_be_bytes(),
                &vec![7; left],
            ]
            .concat()
        };
        for (length, number) in [(COMMAND_BYTES, 54), (COMMAND_BYTES + 1, 53)] {
            let pairs = pairs(length);
            let request = Request {
                pairs: &pairs,
                count: 1,
                ..PLAIN
            };
            assert_eq!(request.command().len(), length);
            assert_eq!(written(&request, COMMAND_BYTES + 7), Err(number));
        }
    }
}
