//! What the frames of standard input meet of records with ballots (document 02, U14): the number of telegrams and events, then a
//! row for each answer in each form; fails on a row that is 0.

use reference::ballot_records::BallotRecords;
use reference::{frame, rows};
use std::io::{self, Read};
use std::process::ExitCode;

fn main() -> ExitCode {
    match count() {
        Ok(()) => ExitCode::SUCCESS,
        Err(error) => {
            eprintln!("ballot_records: {error}");
            ExitCode::FAILURE
        }
    }
}

fn count() -> io::Result<()> {
    let mut frames = Vec::new();
    io::stdin().lock().read_to_end(&mut frames)?;
    let mut met = BallotRecords::default();
    for frame in frames.chunks(frame::LENGTH) {
        met.add(frame);
    }
    let [telegrams, events] = met.frames();
    println!("{telegrams} telegrams of kinds 5 to 8, {events} events");
    rows::print(&met.rows())
}
