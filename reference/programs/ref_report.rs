//! The report program of document 02, U13: n, f, count (2), s (4) and k (2) on standard input.

use reference::survey::output;
use std::io::{self, Read, Write};

fn main() -> io::Result<()> {
    let mut input = Vec::new();
    io::stdin().lock().read_to_end(&mut input)?;
    io::stdout().lock().write_all(output(&input).as_bytes())
}
