//! The generator program of document 02, U6: n, f, count (2) and start (4) on standard input.

use reference::generator::output;
use std::io::{self, Read, Write};

fn main() -> io::Result<()> {
    let mut input = Vec::new();
    io::stdin().lock().read_to_end(&mut input)?;
    io::stdout().lock().write_all(&output(&input))
}
