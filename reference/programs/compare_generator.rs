//! Compares a generator program with the reference, and runs a bench program on 250 of its files: compare_generator COUNT SEED GENERATOR BENCH

use reference::bench::Bench;
use reference::generate::wanted;
use reference::generator::{output, Wanted, MAX_DRAWN};
use reference::group::MAX_CONTROLLERS;
use reference::process::output_of;
use reference::records::event::Event;
use reference::rng::Rng;
use reference::text::bench_report;
use std::collections::BTreeMap;
use std::io;
use std::process::ExitCode;

/// So many files are run on the bench.
const RUNS: usize = 250;

/// The answers that a drawn event can get. The others are asked of lock and order, of records that do not read, or of an order that is not open.
const ANSWERS: [u8; 8] = [0, 7, 10, 15, 16, 17, 18, 19];

const KINDS: [&str; 9] = [
    "lock", "order", "vote", "deliver", "bell", "arbiter", "stop", "save", "restore",
];

fn main() -> ExitCode {
    match compare() {
        Ok(()) => ExitCode::SUCCESS,
        Err(error) => {
            eprintln!("compare_generator: {error}");
            ExitCode::FAILURE
        }
    }
}

fn compare() -> io::Result<()> {
    let arguments: Vec<String> = std::env::args().skip(1).collect();
    let usage = || io::Error::other("usage: compare_generator COUNT SEED GENERATOR BENCH");
    let [count, seed, generator, bench] = &arguments[..] else {
        return Err(usage());
    };
    let count = count.parse().map_err(|_| usage())?;
    let seed = seed.parse().map_err(|_| usage())?;
    let mut met = Met::new();
    let mut runs = 0;
    for input in wanted::inputs(&mut Rng::new(seed), count) {
        let expected = output(&input);
        if output_of(std::slice::from_ref(generator), &input)? != expected {
            return Err(io::Error::other(format!("the file of {input:?} differs")));
        }
        met.add_output(&input, &expected);
        let file = Wanted::from_bytes(&input).and_then(|wanted| wanted.file().ok());
        if let Some(file) = file.filter(|file| file.len() > 1_000 && runs < RUNS) {
            if output_of(std::slice::from_ref(bench), &file)? != bench_report(&file).as_bytes() {
                return Err(io::Error::other(format!("the run of {input:?} differs")));
            }
            met.add_run(&file)?;
            runs += 1;
        }
    }
    println!("{runs} files run on the bench, no difference");
    met.print()
}

/// What was met, and how often.
struct Met(BTreeMap<String, u64>);

impl Met {
    fn new() -> Met {
        let mut names = vec![
            "files".to_string(),
            "files, least n".to_string(),
            "files, most n".to_string(),
            "files, count 0".to_string(),
            "files, most drawn".to_string(),
            "files, start 1".to_string(),
            "files, highest start".to_string(),
        ];
        names.extend([1, 4, 23].map(|number| format!("refused by {number}")));
        names.extend(KINDS.map(|kind| format!("run: {kind}")));
        names.extend(KINDS.map(|kind| format!("run: {kind} accepted")));
        names.extend(ANSWERS.map(|number| format!("run: answer {number}")));
        Met(names.into_iter().map(|name| (name, 0)).collect())
    }

    fn count(&mut self, name: String, met: bool) {
        *self.0.entry(name).or_insert(0) += u64::from(met);
    }

    fn add_output(&mut self, input: &[u8], output: &[u8]) {
        if let Some(refusal) = output.strip_prefix(b"- ") {
            let number = String::from_utf8_lossy(refusal);
            self.count(format!("refused by {}", number.trim_end()), true);
            return;
        }
        let Some(wanted) = Wanted::from_bytes(input) else {
            return;
        };
        let Wanted {
            group,
            count,
            start,
        } = wanted;
        self.count("files".to_string(), true);
        self.count("files, least n".to_string(), group.n == 2);
        self.count("files, most n".to_string(), group.n == MAX_CONTROLLERS);
        self.count("files, count 0".to_string(), count == 0);
        self.count("files, most drawn".to_string(), count == MAX_DRAWN);
        self.count("files, start 1".to_string(), start == 1);
        self.count("files, highest start".to_string(), start == u32::MAX);
    }

    fn add_run(&mut self, file: &[u8]) -> io::Result<()> {
        let mut bench = Bench::default();
        for record in file.chunks(Event::LENGTH) {
            let kind = KINDS[usize::from(record[2])];
            let answer = bench.step_record(record);
            if !ANSWERS.contains(&answer) {
                return Err(io::Error::other(format!("a drawn {kind} was answered {answer}")));
            }
            self.count(format!("run: {kind}"), true);
            self.count(format!("run: {kind} accepted"), answer == 0);
            self.count(format!("run: answer {answer}"), true);
        }
        Ok(())
    }

    fn print(&self) -> io::Result<()> {
        for (name, met) in &self.0 {
            println!("{met:>9} {name}");
        }
        match self.0.iter().find(|(_, met)| **met == 0) {
            Some((name, _)) => Err(io::Error::other(format!("never met: {name}"))),
            None => Ok(()),
        }
    }
}
