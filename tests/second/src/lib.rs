//! A second reading of the rules, written from the papers alone.
//! A command's bytes are read into a tree of values first and the tree is
//! judged after. The channel is told by the history of its frames, the count of
//! its active requests too. What is sent is a list of frames before it is bytes,
//! and a stored log a list of records; two logs are compared by their lists. The
//! board judges by tables.

pub mod board;
pub mod bytes;
pub mod capture;
pub mod command;
pub mod differences;
pub mod frame;
pub mod lamp;
pub mod log;
pub mod receiver;
pub mod replay;
pub mod sender;
pub mod state;
pub mod value;
