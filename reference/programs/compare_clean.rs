//! Compares a bench program with the reference on clean orders that end everywhere: compare_clean SEED COMMAND...
//! For every n and f, one where all are willing and one where somebody is not. Document 02, U10: "the figure is to be
//! exactly 2fn, fn of each kind, with no help call and no answer, willing or not."

use reference::generate::clean_orders::clean_order;
use reference::group::{Group, MAX_CONTROLLERS};
use reference::process::output_of;
use reference::records::event::Event;
use reference::rng::Rng;
use reference::text::bench_report;
use std::process::ExitCode;
use std::{env, io};

fn main() -> ExitCode {
    match compare() {
        Ok(()) => ExitCode::SUCCESS,
        Err(error) => {
            eprintln!("compare_clean: {error}");
            ExitCode::FAILURE
        }
    }
}

fn compare() -> io::Result<()> {
    let arguments: Vec<String> = env::args().skip(1).collect();
    let usage = || io::Error::other("usage: compare_clean SEED COMMAND...");
    let [seed, command @ ..] = &arguments[..] else {
        return Err(usage());
    };
    let mut rng = Rng::new(seed.parse().map_err(|_| usage())?);
    let (mut orders, mut telegrams) = (0, 0);
    for n in 2..=MAX_CONTROLLERS {
        for f in 1..n {
            let unwilling = rng.between(1, usize::from(n)) as u8;
            for unwilling in [None, Some(unwilling)] {
                telegrams += compare_one(&mut rng, Group { n, f }, unwilling, command)
                    .map_err(|error| io::Error::other(format!("n = {n}, f = {f}: {error}")))?;
                orders += 1;
            }
        }
    }
    println!("{orders} clean orders that ended everywhere, of every n and f, no difference; {telegrams} telegrams, 2fn each");
    Ok(())
}

/// Runs a clean order; answers 2fn, which is what its T line shows.
fn compare_one(
    rng: &mut Rng,
    group: Group,
    unwilling: Option<u8>,
    command: &[String],
) -> io::Result<usize> {
    let mut schedule = Vec::new();
    for event in clean_order(rng, group, unwilling) {
        let mut record = [0; Event::LENGTH];
        event.write(&mut record);
        schedule.extend(record);
    }
    let expected = bench_report(&schedule);
    if output_of(command, &schedule)? != expected.as_bytes() {
        return Err(io::Error::other("another output"));
    }
    let word = if unwilling.is_none() { 'M' } else { 'S' };
    let ended = |line: &&str| line.starts_with('C') && line.contains(&format!(" 3 {word} "));
    if expected.lines().filter(ended).count() != usize::from(group.n) {
        return Err(io::Error::other("somebody has not ended"));
    }
    let of_each = usize::from(group.f) * usize::from(group.n);
    match expected.lines().last() {
        Some(line) if line == format!("T {of_each} {of_each} 0 0") => Ok(2 * of_each),
        line => Err(io::Error::other(format!("{line:?}"))),
    }
}
