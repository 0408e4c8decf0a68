//! Puts sequences of acts, one after the other on standard input, each to a new line, and prints what the line program would print of each.
//! ref_line LENGTH: how many acts a sequence has; without it the whole input is one.

use reference::line::line_report;
use std::io::{self, BufWriter, Read, Write};

fn main() -> io::Result<()> {
    let mut acts = Vec::new();
    io::stdin().lock().read_to_end(&mut acts)?;
    let mut output = BufWriter::new(io::stdout().lock());
    let length = match std::env::args().nth(1) {
        Some(text) => text.parse().map_err(io::Error::other)?,
        None => acts.len().max(1),
    };
    for sequence in acts.chunks(length) {
        output.write_all(line_report(sequence).as_bytes())?;
    }
    output.flush()
}
