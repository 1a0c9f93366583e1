//! The second program: reads the lines of `replay`, as docs/REPLAY.md has
//! them, from standard input and answers them by the second implementation.
//! After `poke` or `set` a frame under way is what then stands in the work area.

use second::replay::Replay;
use std::io::{stdin, stdout, BufRead, BufWriter, Result, Write};

fn main() -> Result<()> {
    let mut input = stdin().lock();
    let mut output = BufWriter::new(stdout().lock());
    let mut replay = Replay::default();
    let mut line = Vec::new();
    while input.read_until(b'\n', &mut line)? > 0 {
        let text = line.strip_suffix(b"\n").unwrap_or(&line);
        if let Some(answer) = replay.answer(text) {
            writeln!(output, "{answer}")?;
        }
        line.clear();
    }
    output.flush()
}
