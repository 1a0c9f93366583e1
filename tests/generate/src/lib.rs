//! Makes commands to compare two readers on: good ones, ones with one loose
//! head, ones with a known fault, and damaged ones; sessions of a channel, as
//! lines of `replay`, and the same lines damaged; captures of the line; requests
//! to be sent; commands for a board; commands for the search for double keys;
//! stored logs; and pairs of logs.
//! The same seed and index give the same ones on every machine.

mod boards;
mod captures;
mod client;
mod commands;
mod cuts;
mod drains;
mod faults;
pub mod fixed;
mod garbled;
mod heads;
mod item;
mod key_sets;
mod keys;
mod logs;
mod loose;
mod pairs;
mod random;
mod refused;
mod sends;
mod sessions;
mod sizes;
mod starts;

pub use boards::{board_capture, board_step, BoardStep};
pub use captures::capture;
pub use commands::case;
pub use cuts::{row_length, ROW_LENGTHS};
pub use garbled::garbled;
pub use heads::{heads, Head, Place};
pub use keys::key_command;
pub use logs::{conversion, Conversion};
pub use pairs::{pair, Made, Pair, MADE};
pub use random::Random;
pub use sends::{sending, Sending, FAULTS};
pub use sessions::{drain_session, session};

/// A command, and a key to look up in it.
pub struct Case {
    pub command: Vec<u8>,
    pub key: Vec<u8>,
}
