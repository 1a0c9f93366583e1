//! A frame: eight header bytes and the payload.

use crate::value::{read_whole, Value};

pub const HEADER: usize = 8;
/// A header that claims more is refused with 11 (E7).
pub const PAYLOAD: usize = 65_535;
/// The most a command may have in all, and what a slot's part holds.
pub const COMMAND_BYTES: usize = 2048;
/// What stands before the content in a record's body: the request id and a byte.
pub const BODY_HEAD: usize = 2 + 1;
/// The longest record: its length in four bytes, its kind, and the longest body.
pub const RECORD: usize = 4 + 2 + BODY_HEAD + PAYLOAD;

pub const COMMAND: u8 = 1;
pub const DATA: u8 = 2;
pub const SETTINGS: u8 = 9;

pub const BEGINS: u8 = 0x01;
pub const ENDS: u8 = 0x02;

pub const NEW: u8 = 0x01;
pub const CONTINUATION: u8 = 0x02;
pub const MORE: u8 = 0x04;
pub const WITH_DATA: u8 = 0x08;

pub const MORE_DATA: u8 = 0x01;
pub const LAST_DATA: u8 = 0x02;

#[derive(Clone, Debug, PartialEq, Eq)]
pub struct Frame {
    bytes: Vec<u8>,
}

/// The payload length that the first three bytes of a header claim.
pub fn claimed(header: &[u8]) -> usize {
    usize::from(header[0]) | usize::from(header[1]) << 8 | usize::from(header[2]) << 16
}

impl Frame {
    /// `bytes` are a header and as much payload as it claims.
    pub fn read(bytes: Vec<u8>) -> Frame {
        Frame { bytes }
    }

    /// A command frame on a stream that it opens and closes again.
    pub fn command(request: u16, flags: u8, payload: &[u8]) -> Frame {
        Frame::write(request, 1, BEGINS | ENDS, COMMAND << 4 | flags, payload)
    }

    /// The last data frame of a request, on a stream as above.
    pub fn last_data(request: u16) -> Frame {
        Frame::write(request, 1, BEGINS | ENDS, DATA << 4 | LAST_DATA, &[])
    }

    /// A frame that opens a stream and does nothing else.
    pub fn opening(stream: u8) -> Frame {
        Frame::write(1, stream, BEGINS, SETTINGS << 4 | 0x02, b"\x48identity")
    }

    /// `last` is the header's last byte: the type and the flags.
    pub fn write(request: u16, stream: u8, stream_flags: u8, last: u8, payload: &[u8]) -> Frame {
        let length = (payload.len() as u32).to_le_bytes();
        let mut bytes = length[..3].to_vec();
        bytes.extend(request.to_le_bytes());
        bytes.extend([stream, stream_flags, last]);
        bytes.extend(payload);
        Frame { bytes }
    }

    pub fn bytes(&self) -> &[u8] {
        &self.bytes
    }

    pub fn request(&self) -> u16 {
        u16::from_le_bytes([self.bytes[3], self.bytes[4]])
    }

    pub fn stream(&self) -> u8 {
        self.bytes[5]
    }

    pub fn stream_flags(&self) -> u8 {
        self.bytes[6]
    }

    pub fn kind(&self) -> u8 {
        self.bytes[7] >> 4
    }

    pub fn flags(&self) -> u8 {
        self.bytes[7] & 0x0f
    }

    pub fn payload(&self) -> &[u8] {
        &self.bytes[HEADER..]
    }

    pub fn begins(&self) -> bool {
        self.stream_flags() & BEGINS != 0
    }

    pub fn ends(&self) -> bool {
        self.stream_flags() & ENDS != 0
    }

    /// Whether a command frame has this flag; false of another frame.
    pub fn is_command(&self, flag: u8) -> bool {
        self.kind() == COMMAND && self.flags() & flag != 0
    }

    /// A command frame after which the command is whole.
    pub fn makes_whole(&self) -> bool {
        self.kind() == COMMAND && self.flags() & MORE == 0
    }

    /// The head of the byte string may have any width, as every head of the
    /// subset may, so the reader of command values serves here too.
    pub fn names_identity(&self) -> bool {
        read_whole(self.payload()) == Some(Value::Bytes(b"identity"))
    }
}
