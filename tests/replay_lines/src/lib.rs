//! The lines of docs/REPLAY.md, answered by the archive `hgrpc`. The buffers
//! are lent from ordinary memory, or against pages that may not be touched.

mod driver;
mod room;
mod state;
mod words;

pub use driver::{Driver, LINE};
pub use room::{Edge, Room};
