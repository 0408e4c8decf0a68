//! Reads or writes one record per frame of standard input and prints a line for each.

use reference::frame;
use std::io::{self, BufWriter, Read, Write};

fn main() -> io::Result<()> {
    let mut frames = Vec::new();
    io::stdin().lock().read_to_end(&mut frames)?;
    let mut output = BufWriter::new(io::stdout().lock());
    for (index, frame) in frames.chunks(frame::LENGTH).enumerate() {
        let line = frame::line(frame)
            .map_err(|error| io::Error::other(format!("frame {index}: {error}")))?;
        writeln!(output, "{line}")?;
    }
    output.flush()
}
