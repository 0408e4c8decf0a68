//! Compares a bench program with the reference on schedules with steps back (document 02, U11):
//! compare_steps_back SCHEDULES COMMAND...
//! SCHEDULES is a file of schedules, each after its length in four bytes; COMMAND runs the program under test. Without COMMAND
//! the reference alone is held against the document.

use reference::generate::schedules;
use reference::process::compare_bench;
use reference::rows;
use reference::step_back_tally::StepBackTally;
use std::process::ExitCode;
use std::{env, fs, io};

fn main() -> ExitCode {
    match compare() {
        Ok(()) => ExitCode::SUCCESS,
        Err(error) => {
            eprintln!("compare_steps_back: {error}");
            ExitCode::FAILURE
        }
    }
}

fn compare() -> io::Result<()> {
    let arguments: Vec<String> = env::args().skip(1).collect();
    let [path, command @ ..] = &arguments[..] else {
        return Err(io::Error::other("usage: compare_steps_back SCHEDULES COMMAND..."));
    };
    let file = fs::read(path)?;
    let mut tally = StepBackTally::default();
    let mut count = 0;
    for schedule in schedules::split(&file)? {
        let within = |error: String| io::Error::other(format!("schedule {count}: {error}"));
        if !command.is_empty() {
            compare_bench(schedule, command).map_err(|error| within(error.to_string()))?;
        }
        tally.add(schedule).map_err(within)?;
        count += 1;
    }
    println!("{count} schedules with steps back, no difference");
    rows::print(&tally.rows())
}
