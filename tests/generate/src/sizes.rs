//! The sizes of the papers, and what a line of `replay` has room for.

/// The bytes of a frame before its payload, and of a record before its content.
pub const FRAME_HEAD: usize = 8;
pub const RECORD_HEAD: usize = 9;

/// The most bytes of a command, of a payload, and of a payload that is sent.
pub const LONGEST_COMMAND: usize = 2048;
pub const LONGEST_PAYLOAD: usize = 65_535;
pub const LONGEST_SENT: usize = 4096;

/// The longest record. With less output left no frame's last byte is taken.
pub const LEAST_OUTPUT: usize = RECORD_HEAD + LONGEST_PAYLOAD;

pub const SLOTS: usize = 8;
/// Where the slots' parts of the work area start, and where the area ends.
pub const PARTS: usize = FRAME_HEAD + LONGEST_PAYLOAD;
pub const WORK: usize = PARTS + SLOTS * LONGEST_COMMAND;
/// The most that is pending: a longest frame but for its last byte.
pub const MOST_PENDING: usize = PARTS - 1;

/// The most characters of a line, and the most bytes of its work area and of its
/// output.
pub const LONGEST_LINE: usize = 700_000;
pub const LARGEST_AREA: usize = 100_000;
pub const LARGEST_OUTPUT: usize = 300_000;
