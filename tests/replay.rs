//! Reads the lines of docs/REPLAY.md from standard input and answers them by
//! the archive `hgrpc`. What has come is answered before more is read.

use replay_lines::{Driver, Edge, LINE};
use std::io::{stdin, stdout, BufWriter, Read, Result, Write};
use std::process::exit;

/// What one read asks for.
const PIECE: usize = 65_536;
/// More of a line than this is not kept: it is too long to be read.
const KEPT: usize = LINE + 1;

struct Lines<W: Write> {
    driver: Driver,
    line: Vec<u8>,
    output: W,
}

impl<W: Write> Lines<W> {
    fn piece(&mut self, piece: &[u8]) -> Result<()> {
        for part in piece.split_inclusive(|byte| *byte == b'\n') {
            let (text, ended) = match part.strip_suffix(b"\n") {
                Some(text) => (text, true),
                None => (part, false),
            };
            let room = KEPT - self.line.len();
            self.line.extend(&text[..text.len().min(room)]);
            if ended {
                self.end()?;
            }
        }
        self.output.flush()
    }

    /// The line ends here.
    fn end(&mut self) -> Result<()> {
        if let Some(answer) = self.driver.answer(&self.line) {
            writeln!(self.output, "{answer}")?;
        }
        self.line.clear();
        Ok(())
    }
}

fn fail(reason: &str) -> ! {
    eprintln!("{reason}");
    exit(1)
}

fn main() {
    let mut lines = Lines {
        driver: Driver::new(Edge::None),
        line: Vec::new(),
        output: BufWriter::new(stdout().lock()),
    };
    let mut piece = vec![0; PIECE];
    let mut input = stdin().lock();
    loop {
        let Ok(count) = input.read(&mut piece) else {
            fail("the input cannot be read");
        };
        let written = match count {
            0 => lines.end().and_then(|()| lines.output.flush()),
            _ => lines.piece(&piece[..count]),
        };
        if written.is_err() {
            fail("the output cannot be written");
        }
        if count == 0 {
            return;
        }
    }
}
