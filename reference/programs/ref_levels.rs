//! Prints what the levels program prints of each pair of ranges on standard input.

use reference::levels;
use std::io::{self, BufWriter, Read, Write};

fn main() -> io::Result<()> {
    let mut pairs = Vec::new();
    io::stdin().lock().read_to_end(&mut pairs)?;
    let mut output = BufWriter::new(io::stdout().lock());
    for pair in pairs.chunks(levels::LENGTH) {
        writeln!(output, "{}", levels::line(pair))?;
    }
    output.flush()
}
