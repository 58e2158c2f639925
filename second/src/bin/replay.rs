//! Reads a station's trace from standard input and writes what came of it, line by line, as
//! docs/replay.md has it. A trace may have any length, and its lines too.
//!
//!     replay <trace

use second::replay::{Replay, HEADER};
use second::trace::LONGEST_LINE;
use std::io::{self, BufRead, BufWriter, ErrorKind, Write};
use std::process::ExitCode;

/// A failure to read or to write ends the program without a word.
fn main() -> ExitCode {
    let output = BufWriter::new(io::stdout().lock());
    match run(&mut io::stdin().lock(), output) {
        Ok(()) => ExitCode::SUCCESS,
        Err(_) => ExitCode::FAILURE,
    }
}

fn run(input: &mut impl BufRead, mut output: impl Write) -> io::Result<()> {
    output.write_all(HEADER.as_bytes())?;
    output.flush()?;
    let mut lines = Lines::default();
    loop {
        let chunk = match input.fill_buf() {
            Err(error) if error.kind() == ErrorKind::Interrupted => continue,
            chunk => chunk?,
        };
        if chunk.is_empty() {
            break;
        }
        for part in chunk.split_inclusive(|byte| *byte == b'\n') {
            lines.take(part, &mut output)?;
        }
        let length = chunk.len();
        input.consume(length);
        output.flush()?;
    }
    lines.end(&mut output)?;
    output.flush()
}

/// The line that is still to end. Of a longer line than a good one only the beginning is kept,
/// which has the column that matters.
#[derive(Default)]
struct Lines {
    replay: Replay,
    line: Vec<u8>,
    text: String,
}

impl Lines {
    /// Takes a part of a line, its last one exactly if it ends with a line feed.
    fn take(&mut self, part: &[u8], output: &mut impl Write) -> io::Result<()> {
        let room = LONGEST_LINE - self.line.len();
        self.line.extend_from_slice(&part[..part.len().min(room)]);
        if part.ends_with(b"\n") {
            self.answer(output)?;
        }
        Ok(())
    }

    /// A last line without its line feed is a line too.
    fn end(&mut self, output: &mut impl Write) -> io::Result<()> {
        if self.line.is_empty() {
            return Ok(());
        }
        self.answer(output)
    }

    fn answer(&mut self, output: &mut impl Write) -> io::Result<()> {
        self.text.clear();
        self.replay.line(&self.line, &mut self.text);
        self.line.clear();
        output.write_all(self.text.as_bytes())
    }
}
