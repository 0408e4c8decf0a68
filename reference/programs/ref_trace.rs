//! The trace of the schedule on standard input, which is text or records.

use reference::trace::trace;
use std::io::{self, Read, Write};

fn main() -> io::Result<()> {
    let mut schedule = Vec::new();
    io::stdin().lock().read_to_end(&mut schedule)?;
    io::stdout().lock().write_all(&trace(&schedule))
}
