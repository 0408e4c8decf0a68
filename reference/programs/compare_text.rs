//! Compares a bench program with the reference where schedules are text: compare_text SCHEDULES COMMAND...
//! SCHEDULES is a file of schedules, each after its length in four bytes. Each is written as text; a third of the texts get a byte changed.

use reference::generate::schedules;
use reference::process::compare_output;
use reference::rng::Rng;
use reference::schedule_text::{bench, text};
use std::process::ExitCode;
use std::{env, fs, io};

fn main() -> ExitCode {
    match compare() {
        Ok(()) => ExitCode::SUCCESS,
        Err(error) => {
            eprintln!("compare_text: {error}");
            ExitCode::FAILURE
        }
    }
}

fn compare() -> io::Result<()> {
    let arguments: Vec<String> = env::args().skip(1).collect();
    let [path, command @ ..] = &arguments[..] else {
        return Err(io::Error::other("usage: compare_text SCHEDULES COMMAND..."));
    };
    let file = fs::read(path)?;
    let mut rng = Rng::new(32);
    let (mut played, mut refused) = (0, 0);
    for (count, schedule) in schedules::split(&file)?.into_iter().enumerate() {
        let mut input = text(schedule);
        if rng.chance(1, 3) && !input.is_empty() {
            let at = rng.below(input.len());
            input[at] = rng.between(32, 126) as u8;
        }
        let expected = bench(&input);
        compare_output(&input, &expected, command)
            .map_err(|error| io::Error::other(format!("schedule {count}: {error}")))?;
        if expected.starts_with(b"- ") {
            refused += 1;
        } else {
            played += 1;
        }
    }
    println!("{played} texts played alike, and {refused} refused");
    if played == 0 || refused == 0 {
        return Err(io::Error::other("no text was played, or none refused"));
    }
    Ok(())
}
