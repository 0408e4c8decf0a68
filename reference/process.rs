//! Programs under test.

use crate::text::bench_report;
use std::io::{self, Write};
use std::process::{Command, Output, Stdio};
use std::thread;

/// What a program prints for an input on its standard input.
pub fn output_of(command: &[String], input: &[u8]) -> io::Result<Vec<u8>> {
    let output = run(command, input, Stdio::inherit())?;
    if !output.status.success() {
        return Err(io::Error::other(format!(
            "the program ended with {}",
            output.status
        )));
    }
    Ok(output.stdout)
}

/// The status with which it ended, none where it was killed, and what it printed.
pub fn status_and_output(command: &[String], input: &[u8]) -> io::Result<(Option<i32>, Vec<u8>)> {
    let output = run(command, input, Stdio::null())?;
    Ok((output.status.code(), output.stdout))
}

fn run(command: &[String], input: &[u8], errors: Stdio) -> io::Result<Output> {
    let [program, arguments @ ..] = command else {
        return Err(io::Error::other("no program to compare with"));
    };
    let mut child = Command::new(program)
        .args(arguments)
        .stdin(Stdio::piped())
        .stdout(Stdio::piped())
        .stderr(errors)
        .spawn()?;
    let mut pipe = child.stdin.take().expect("a pipe");
    thread::scope(|scope| {
        // A program may stop reading early; what it prints is compared all the same.
        scope.spawn(move || pipe.write_all(input).ok());
        child.wait_with_output()
    })
}

/// Runs a schedule on the reference and on the bench program that the command runs; an error names the first line that
/// differs.
pub fn compare_bench(schedule: &[u8], command: &[String]) -> io::Result<()> {
    compare_output(schedule, bench_report(schedule).as_bytes(), command)
}

/// Looks that the program prints what is expected.
pub fn compare_output(input: &[u8], expected: &[u8], command: &[String]) -> io::Result<()> {
    let printed = output_of(command, input)?;
    if printed == expected {
        return Ok(());
    }
    let expected = String::from_utf8_lossy(expected);
    let printed = String::from_utf8_lossy(&printed);
    let lines = expected.split('\n').zip(printed.split('\n'));
    let same = lines.take_while(|(a, b)| a == b).count();
    let line = |text: &str| match text.split('\n').nth(same) {
        Some(line) => format!("{line:?}"),
        None => "nothing".to_string(),
    };
    Err(io::Error::other(format!(
        "line {}: expected {}, printed {}",
        same + 1,
        line(&expected),
        line(&printed)
    )))
}
