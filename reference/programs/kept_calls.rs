//! What schedules meet of kept calls (document 02, U4), and whether document 01's bench comes to the same: kept_calls
//! SCHEDULES, a file of schedules, each after its length in four bytes.

use reference::generate::schedules;
use reference::kept::KeptCalls;
use std::process::ExitCode;
use std::{env, fs, io};

fn main() -> ExitCode {
    match count() {
        Ok(()) => ExitCode::SUCCESS,
        Err(error) => {
            eprintln!("kept_calls: {error}");
            ExitCode::FAILURE
        }
    }
}

fn count() -> io::Result<()> {
    let usage = || io::Error::other("usage: kept_calls SCHEDULES");
    let file = fs::read(env::args().nth(1).ok_or_else(usage)?)?;
    let mut kept = KeptCalls::default();
    let schedules = schedules::split(&file)?;
    for (place, schedule) in schedules.iter().enumerate() {
        kept.add(schedule)
            .map_err(|error| io::Error::other(format!("schedule {place}: {error}")))?;
    }
    println!(
        "{} schedules as document 01 has them with each kept call once more, no difference",
        schedules.len()
    );
    for (name, met) in kept.rows() {
        println!("{met:>9} {name}");
    }
    match kept.rows().iter().find(|(_, met)| *met == 0) {
        None => Ok(()),
        Some((name, _)) => Err(io::Error::other(format!("never met: {name}"))),
    }
}
