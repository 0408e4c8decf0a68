//! The bench program of document 01: "It reads events from standard input", and takes them as text too.

use reference::schedule_text::bench;
use std::io::{self, Read, Write};

fn main() -> io::Result<()> {
    let mut schedule = Vec::new();
    io::stdin().lock().read_to_end(&mut schedule)?;
    io::stdout().lock().write_all(&bench(&schedule))
}
