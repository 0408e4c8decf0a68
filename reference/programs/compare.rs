//! Compares a bench program with the reference: compare SCHEDULES COMMAND...
//! SCHEDULES is a file of schedules, each after its length in four bytes; COMMAND runs the program under test.

use reference::generate::schedules;
use reference::process::compare_bench;
use reference::rows;
use reference::tally::Tally;
use std::process::ExitCode;
use std::{env, fs, io};

fn main() -> ExitCode {
    match compare() {
        Ok(()) => ExitCode::SUCCESS,
        Err(error) => {
            eprintln!("compare: {error}");
            ExitCode::FAILURE
        }
    }
}

fn compare() -> io::Result<()> {
    let arguments: Vec<String> = env::args().skip(1).collect();
    let [path, command @ ..] = &arguments[..] else {
        return Err(io::Error::other("usage: compare SCHEDULES COMMAND..."));
    };
    let file = fs::read(path)?;
    let mut tally = Tally::default();
    let mut count = 0;
    for schedule in schedules::split(&file)? {
        compare_bench(schedule, command)
            .map_err(|error| io::Error::other(format!("schedule {count}: {error}")))?;
        tally.add(schedule);
        count += 1;
    }
    println!("{count} schedules, no difference");
    let met = rows::print(&tally.rows());
    if tally.contradictions() != 0 {
        return Err(io::Error::other("a delivery was refused by 24"));
    }
    println!("{:>9} refusals by 24, on the bench none", tally.contradictions());
    met
}
