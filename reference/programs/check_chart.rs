//! Holds the pictures of schedules against their traces: check_chart SCHEDULES SEED CHART
//! SCHEDULES is a file of schedules, each after its length in four bytes; CHART draws the trace on its standard input. Of each
//! trace damaged ones are drawn too: those are drawn or refused with status 2.

use reference::generate::{schedules, traces};
use reference::picture::{compare, compare_orders, xml, Met};
use reference::process::status_and_output;
use reference::rng::Rng;
use reference::rows;
use reference::trace::trace;
use std::process::ExitCode;
use std::{env, fs, io};

/// Damaged traces of each schedule.
const DAMAGED: usize = 3;

fn main() -> ExitCode {
    match check() {
        Ok(()) => ExitCode::SUCCESS,
        Err(error) => {
            eprintln!("check_chart: {error}");
            ExitCode::FAILURE
        }
    }
}

fn check() -> io::Result<()> {
    let arguments: Vec<String> = env::args().skip(1).collect();
    let [path, seed, chart] = &arguments[..] else {
        return Err(io::Error::other("usage: check_chart SCHEDULES SEED CHART"));
    };
    let file = fs::read(path)?;
    let mut rng = Rng::new(seed.parse().map_err(io::Error::other)?);
    let mut met = Met::default();
    let mut count = 0;
    for schedule in schedules::split(&file)? {
        let told = trace(schedule);
        if !told.starts_with(b"- ") {
            let within = |why: String| io::Error::other(format!("schedule {count}: {why}"));
            let picture = draw(&[chart], &told).map_err(within)?;
            compare(&String::from_utf8_lossy(&told), &picture, &mut met).map_err(within)?;
            let order = |number: u32| draw(&[chart, "--order", &number.to_string()], &told);
            compare_orders(&String::from_utf8_lossy(&told), order, &mut met).map_err(within)?;
            count += 1;
        }
        for _ in 0..DAMAGED {
            let damaged = traces::damaged(&mut rng, &told);
            let (status, output) = status_and_output(std::slice::from_ref(chart), &damaged)?;
            let text = String::from_utf8_lossy(&output);
            match status {
                Some(0) if xml::read(&text).is_ok() => met.add("damaged traces drawn", 1),
                Some(2) if output.is_empty() => met.add("damaged traces refused", 1),
                _ => {
                    return Err(io::Error::other(format!(
                        "a damaged trace: status {status:?}\n{}",
                        String::from_utf8_lossy(&damaged)
                    )))
                }
            }
        }
    }
    println!("{count} pictures have what their traces tell");
    rows::print(met.rows())
}

fn draw(command: &[&str], told: &[u8]) -> Result<String, String> {
    let command: Vec<String> = command.iter().map(|word| word.to_string()).collect();
    match status_and_output(&command, told) {
        Ok((Some(0), output)) => String::from_utf8(output).map_err(|error| error.to_string()),
        Ok((status, _)) => Err(format!("{command:?}: status {status:?}")),
        Err(error) => Err(error.to_string()),
    }
}
