//! What was sent, read by the second implementation's plain receiver, which is
//! ready for it.

use second::command;
use second::frame::BODY_HEAD;
use second::receiver::Uncut;
use second::sender::Request;
use second::state::{State, WORK};

/// The records that the request comes to.
fn records(request: &Request) -> Vec<u8> {
    let mut records = Vec::new();
    let mut add = |kind: u16, third: u8, content: &[u8]| {
        let length = (BODY_HEAD + content.len()) as u32;
        records.extend(length.to_le_bytes());
        records.extend(kind.to_le_bytes());
        records.extend(request.id.to_le_bytes());
        records.push(third);
        records.extend(content);
    };
    let command = request.command();
    let mark = if command::loose(&command) { 2 } else { 0 };
    add(1, u8::from(request.data.is_some()) + mark, &command);
    if let Some(data) = request.data {
        let size = request.size as usize;
        let more = data.len().saturating_sub(1) / size * size;
        for payload in data[..more].chunks(size) {
            add(2, 0, payload);
        }
        add(2, 1, &data[more..]);
    }
    records
}

/// Has all that was written read.
pub fn read(request: &Request, frames: &[u8]) -> Result<(), String> {
    let mut state = State::fresh();
    if !request.begin {
        state.open.insert(request.stream);
    }
    let mut receiver = Uncut::start(state, vec![0; WORK]);
    for byte in frames {
        receiver.byte(*byte);
    }
    let state = &receiver.state;
    if state.dead != 0 || state.pending != 0 || receiver.records != records(request) {
        let dead = state.dead;
        return Err(format!("the receiver reads something else, dead {dead}"));
    }
    if state.open.contains(&request.stream) == request.end {
        return Err("the stream is not left as was wished".to_string());
    }
    match receiver.finish(request.id) {
        0 => Ok(()),
        number => Err(format!("finish answers {number}")),
    }
}
