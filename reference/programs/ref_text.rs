//! Writes of each frame on standard input what `records` or `text` prints, after its length.

use reference::generate::texts::{FRAME, HEAD};
use reference::schedule_text::{records, text};
use std::io::{self, BufWriter, Read, Write};

fn main() -> io::Result<()> {
    let mut frames = Vec::new();
    io::stdin().lock().read_to_end(&mut frames)?;
    let mut output = BufWriter::new(io::stdout().lock());
    for frame in frames.chunks_exact(FRAME) {
        let length = usize::from(u16::from_be_bytes([frame[1], frame[2]]));
        let schedule = &frame[HEAD..HEAD + length];
        let printed = if frame[0] == 0 { records(schedule) } else { text(schedule) };
        output.write_all(&(printed.len() as u16).to_be_bytes())?;
        output.write_all(&printed)?;
    }
    output.flush()
}
