//! Draws a trace as SVG: `chart [--order N] < TRACE`. What is drawn is what the trace tells; no rule of the protocol is here.

mod lanes;
mod layout;
mod legend;
mod losses;
mod marks;
mod notes;
mod picture;
mod rows;
mod run;
mod svg;
mod telegrams;
mod trace;
mod words;

use std::io::{self, Read, Write};
use std::process::ExitCode;

fn main() -> ExitCode {
    match chart() {
        Ok(()) => ExitCode::SUCCESS,
        Err((status, why)) => {
            if !why.is_empty() {
                eprintln!("chart: {why}");
            }
            ExitCode::from(status)
        }
    }
}

/// 2: wrong arguments or input; 3: it could not be read or written; 141: the reader left, of which nothing is said.
fn chart() -> Result<(), (u8, String)> {
    let order = arguments().ok_or((2, "usage: chart [--order N] < TRACE".to_string()))?;
    let mut bytes = Vec::new();
    io::stdin().lock().read_to_end(&mut bytes).map_err(|error| (3, format!("standard input: {error}")))?;
    let trace = trace::read(&String::from_utf8_lossy(&bytes))
        .map_err(|line| (2, format!("line {line} is no line of a trace")))?;
    let run = run::run(trace)
        .map_err(|index| (2, format!("event {index} undoes or delivers what the trace has not")))?;
    let picture = picture::picture(&run, order)
        .ok_or_else(|| (2, format!("order {} is not opened there", order.unwrap_or(0))))?;
    let mut output = io::stdout().lock();
    match output.write_all(picture.as_bytes()).and_then(|()| output.flush()) {
        Ok(()) => Ok(()),
        Err(error) if error.kind() == io::ErrorKind::BrokenPipe => Err((141, String::new())),
        Err(error) => Err((3, format!("standard output: {error}"))),
    }
}

/// The order asked for, if any; none where the arguments are others.
fn arguments() -> Option<Option<u32>> {
    let arguments: Vec<String> =
        std::env::args_os().skip(1).map(|a| a.to_string_lossy().into_owned()).collect();
    match arguments.iter().map(String::as_str).collect::<Vec<_>>()[..] {
        [] => Some(None),
        ["--order", number] => number.parse().ok().map(Some),
        _ => None,
    }
}
