//! The dues program of document 02, U2: a sheet on standard input, both totals or the refusal on standard output.

use reference::dues::dues_line;
use std::io::{self, Read, Write};

fn main() -> io::Result<()> {
    let mut sheet = Vec::new();
    io::stdin().lock().read_to_end(&mut sheet)?;
    io::stdout().lock().write_all(dues_line(&sheet).as_bytes())
}
