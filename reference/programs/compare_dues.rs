//! Compares a dues program with the reference: compare_dues COUNT SEED COMMAND...
//! COMMAND runs the program under test, once for each of COUNT sheets.

use reference::dues::dues_line;
use reference::dues::tally::Tally;
use reference::generate::sheets::sheet;
use reference::rng::Rng;
use std::io::{self, Write};
use std::process::{Command, ExitCode, Stdio};
use std::{env, thread};

fn main() -> ExitCode {
    match compare() {
        Ok(()) => ExitCode::SUCCESS,
        Err(error) => {
            eprintln!("compare_dues: {error}");
            ExitCode::FAILURE
        }
    }
}

fn compare() -> io::Result<()> {
    let arguments: Vec<String> = env::args().skip(1).collect();
    let usage = || io::Error::other("usage: compare_dues COUNT SEED COMMAND...");
    let [count, seed, command @ ..] = &arguments[..] else {
        return Err(usage());
    };
    let count: usize = count.parse().map_err(|_| usage())?;
    let mut rng = Rng::new(seed.parse().map_err(|_| usage())?);
    let mut tally = Tally::default();
    for place in 0..count {
        let sheet = sheet(&mut rng, place);
        let (expected, printed) = (dues_line(&sheet), run(command, &sheet)?);
        if printed != expected.as_bytes() {
            let printed = String::from_utf8_lossy(&printed);
            let message = format!("sheet {place}: expected {expected:?}, printed {printed:?}");
            return Err(io::Error::other(message));
        }
        tally.add(&sheet);
    }
    println!("{count} sheets of lockages, no difference");
    let rows = tally.rows();
    for (name, met) in &rows {
        println!("{met:>9} {name}");
    }
    match rows.iter().find(|(_, met)| *met == 0) {
        None => Ok(()),
        Some((name, _)) => Err(io::Error::other(format!("never met: {name}"))),
    }
}

/// What the program prints for the sheet on its standard input.
fn run(command: &[String], sheet: &[u8]) -> io::Result<Vec<u8>> {
    let [program, arguments @ ..] = command else {
        return Err(io::Error::other("no program to compare with"));
    };
    let mut child = Command::new(program)
        .args(arguments)
        .stdin(Stdio::piped())
        .stdout(Stdio::piped())
        .spawn()?;
    let mut input = child.stdin.take().expect("a pipe");
    let output = thread::scope(|scope| {
        // A program may stop reading early; what it prints is compared all the same.
        scope.spawn(move || input.write_all(sheet).ok());
        child.wait_with_output()
    })?;
    if !output.status.success() {
        let message = format!("the program ended with {}", output.status);
        return Err(io::Error::other(message));
    }
    Ok(output.stdout)
}
