//! What the frames of standard input meet of telegrams in their two forms (document 02, U12): their number, then a row
//! for each answer; fails on a row that is 0.

use reference::frame;
use reference::telegrams::Telegrams;
use std::io::{self, Read};
use std::process::ExitCode;

fn main() -> ExitCode {
    match count() {
        Ok(()) => ExitCode::SUCCESS,
        Err(error) => {
            eprintln!("telegrams: {error}");
            ExitCode::FAILURE
        }
    }
}

fn count() -> io::Result<()> {
    let mut frames = Vec::new();
    io::stdin().lock().read_to_end(&mut frames)?;
    let mut met = Telegrams::default();
    for frame in frames.chunks(frame::LENGTH) {
        met.add(frame);
    }
    println!("{} telegrams", met.frames());
    let rows = met.rows();
    for (name, count) in &rows {
        println!("{count:>9} {name}");
    }
    match rows.iter().find(|(_, count)| *count == 0) {
        None => Ok(()),
        Some((name, _)) => Err(io::Error::other(format!("never met: {name}"))),
    }
}
