//! Compares a bench program with the reference on schedules with ballots (document 02, U14):
//! compare_ballots SCHEDULES COMMAND...
//! SCHEDULES is a file of schedules, each after its length in four bytes; COMMAND runs the program under test.

use reference::ballot_tally::BallotTally;
use reference::generate::schedules;
use reference::process::compare_bench;
use reference::rows;
use std::process::ExitCode;
use std::{env, fs, io};

fn main() -> ExitCode {
    match compare() {
        Ok(()) => ExitCode::SUCCESS,
        Err(error) => {
            eprintln!("compare_ballots: {error}");
            ExitCode::FAILURE
        }
    }
}

fn compare() -> io::Result<()> {
    let arguments: Vec<String> = env::args().skip(1).collect();
    let [path, command @ ..] = &arguments[..] else {
        return Err(io::Error::other("usage: compare_ballots SCHEDULES COMMAND..."));
    };
    let file = fs::read(path)?;
    let mut tally = BallotTally::default();
    let mut count = 0;
    for schedule in schedules::split(&file)? {
        compare_bench(schedule, command)
            .map_err(|error| io::Error::other(format!("schedule {count}: {error}")))?;
        tally.add(schedule);
        count += 1;
    }
    println!("{count} schedules with ballots, no difference");
    rows::print(&tally.rows())
}
