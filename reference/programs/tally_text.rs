//! Counts what the frames on standard input meet; fails on a row that is 0.

use reference::generate::texts::{FRAME, HEAD};
use reference::schedule_text::{records, text};
use std::io::{self, Read};
use std::process::exit;

const ROWS: [&str; 9] = [
    "records", "texts", "a word not expected", "a line ended", "records of another length", "another mark", "unlisted values", "nothing",
    "other bytes as records",
];

fn row(mode: u8, schedule: &[u8], printed: &[u8]) -> usize {
    if printed.is_empty() {
        7
    } else if printed == schedule && !printed.starts_with(b"LE") && mode == 0 {
        8
    } else if printed.starts_with(b"- line ") {
        2 + usize::from(printed.ends_with(b": end of line\n"))
    } else if printed.starts_with(b"- record ") {
        4 + usize::from(printed[printed.len() - 2] - b'1')
    } else {
        usize::from(mode)
    }
}

fn main() -> io::Result<()> {
    let mut frames = Vec::new();
    io::stdin().lock().read_to_end(&mut frames)?;
    let mut met = [0; ROWS.len()];
    for frame in frames.chunks_exact(FRAME) {
        let length = usize::from(u16::from_be_bytes([frame[1], frame[2]]));
        let schedule = &frame[HEAD..HEAD + length];
        let printed = if frame[0] == 0 { records(schedule) } else { text(schedule) };
        met[row(frame[0], schedule, &printed)] += 1;
    }
    for (name, count) in ROWS.iter().zip(met) {
        println!("{name} {count}");
    }
    exit(i32::from(met.contains(&0)))
}
