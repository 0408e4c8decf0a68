//! Compares the console with the reference's trace, and with what the bench program prints: compare_trace SCHEDULES CONSOLE BENCH
//! SCHEDULES is a file of schedules, each after its length in four bytes; each is put to the console as records, and every fourth as text too, with lines
//! that are no events.

use reference::generate::schedules;
use reference::process::{compare_output, output_of};
use reference::rows;
use reference::schedule_text::text;
use reference::trace::trace;
use std::collections::BTreeMap;
use std::process::ExitCode;
use std::{env, fs, io};

fn main() -> ExitCode {
    match compare() {
        Ok(()) => ExitCode::SUCCESS,
        Err(error) => {
            eprintln!("compare_trace: {error}");
            ExitCode::FAILURE
        }
    }
}

fn compare() -> io::Result<()> {
    let arguments: Vec<String> = env::args().skip(1).collect();
    let [path, console, bench] = &arguments[..] else {
        return Err(io::Error::other("usage: compare_trace SCHEDULES CONSOLE BENCH"));
    };
    let file = fs::read(path)?;
    let mut met = BTreeMap::new();
    for (place, schedule) in schedules::split(&file)?.into_iter().enumerate() {
        compare_one(place, schedule, console, bench, &mut met).map_err(|error| io::Error::other(format!("schedule {place}: {error}")))?;
    }
    rows::print(&met.into_iter().collect::<Vec<_>>())
}

fn compare_one(place: usize, schedule: &[u8], console: &str, bench: &str, met: &mut BTreeMap<String, u64>) -> io::Result<()> {
    let console = [console.to_string()];
    let expected = trace(schedule);
    compare_output(schedule, &expected, &console)?;
    let written = text(schedule);
    if written.starts_with(b"- ") {
        *met.entry("not all records read".to_string()).or_default() += 1;
        return Ok(());
    }
    if place % 4 == 0 {
        let damaged = damaged(&written);
        compare_output(&damaged, &trace(&damaged), &console)?;
    }
    let printed = output_of(&[bench.to_string()], schedule)?;
    let shown = as_printed(&expected);
    if !String::from_utf8_lossy(&printed).starts_with(&shown) {
        return Err(io::Error::other("the answers or the last C lines are not the bench program's"));
    }
    for line in String::from_utf8_lossy(&expected).lines() {
        *met.entry(kind_of(line)).or_default() += 1;
    }
    Ok(())
}

/// The answers of a trace without their words, then the C line last shown of each controller.
fn as_printed(trace: &[u8]) -> String {
    let trace = String::from_utf8_lossy(trace);
    let mut shown = String::new();
    let mut rows = BTreeMap::new();
    for line in trace.lines() {
        let words: Vec<&str> = line.split(' ').collect();
        match words[..] {
            [index, answer, ..] if index.bytes().all(|byte| byte.is_ascii_digit()) => shown += &format!("{index} {answer}\n"),
            ["C", controller, ..] => {
                rows.insert(controller.parse::<u8>().unwrap_or(0), format!("{line}\n"));
            }
            _ => {}
        }
    }
    rows.into_values().fold(shown, |shown, row| shown + &row)
}

/// The text with a comment, a blank line and lines that are no events after every third line.
fn damaged(text: &[u8]) -> Vec<u8> {
    let mut damaged = Vec::new();
    for (place, line) in text.split_inclusive(|&byte| byte == b'\n').enumerate() {
        damaged.extend_from_slice(line);
        if place % 3 == 1 {
            damaged.extend_from_slice(b"# a comment\n\nbell one\nlock 2\n");
        }
    }
    damaged
}

/// What a line of a trace is counted as.
fn kind_of(line: &str) -> String {
    let words: Vec<&str> = line.split(' ').collect();
    match words[..] {
        [">", ..] => "lines".to_string(),
        ["sent", kind, ..] => format!("sent {kind}"),
        [word @ ("undone" | "C" | "put" | "given"), ..] => word.to_string(),
        [_, answer, ..] => format!("answered {answer}"),
        _ => "others".to_string(),
    }
}
