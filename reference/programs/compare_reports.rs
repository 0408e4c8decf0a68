//! Compares a report program with the reference: compare_reports COUNT SEED PROGRAM

use reference::generate::reports;
use reference::generator::MAX_DRAWN;
use reference::group::MAX_CONTROLLERS;
use reference::process::output_of;
use reference::rng::Rng;
use reference::survey::{Record, Report, MAX_SCHEDULES};
use reference::vote_set::Verdict;
use std::io;
use std::process::ExitCode;

fn main() -> ExitCode {
    match compare() {
        Ok(()) => ExitCode::SUCCESS,
        Err(error) => {
            eprintln!("compare_reports: {error}");
            ExitCode::FAILURE
        }
    }
}

fn compare() -> io::Result<()> {
    let arguments: Vec<String> = std::env::args().skip(1).collect();
    let usage = || io::Error::other("usage: compare_reports COUNT SEED PROGRAM");
    let [count, seed, program] = &arguments[..] else {
        return Err(usage());
    };
    let count = count.parse().map_err(|_| usage())?;
    let seed = seed.parse().map_err(|_| usage())?;
    let mut met = Met(Vec::new());
    let inputs = reports::inputs(&mut Rng::new(seed), count);
    for input in &inputs {
        let record = Record::from_bytes(input);
        let answer = record.ok_or(1).and_then(Record::report);
        let expected = match &answer {
            Ok(report) => report.text(),
            Err(number) => format!("- {number}\n"),
        };
        if output_of(std::slice::from_ref(program), input)? != expected.as_bytes() {
            return Err(io::Error::other(format!("the report of {input:?} differs")));
        }
        met.add_refusal(record, answer.as_ref().err().copied());
        if let (Some(record), Ok(report)) = (record, &answer) {
            met.add_record(record);
            met.add_report(report);
        }
    }
    println!("{} records answered alike", inputs.len());
    met.print()
}

/// What was met, and how often, in the sequence in which it is counted.
struct Met(Vec<(String, u64)>);

impl Met {
    fn count(&mut self, name: &str, met: bool) {
        match self.0.iter_mut().find(|(known, _)| known == name) {
            Some((_, times)) => *times += u64::from(met),
            None => self.0.push((name.to_string(), u64::from(met))),
        }
    }

    fn add_refusal(&mut self, record: Option<Record>, refusal: Option<u8>) {
        for number in [1, 4, 27, 23] {
            self.count(&format!("refused by {number}"), refusal == Some(number));
        }
        let by_27 = record.filter(|_| refusal == Some(27));
        let ways: [(&str, fn(&Record) -> bool); 5] = [
            ("27: k of 0", |r| r.schedules == 0),
            ("27: k above 1,000", |r| r.schedules > MAX_SCHEDULES),
            ("27: s of 0", |r| r.first == 0),
            ("27: s + k - 1 too high", |r| r.first > 1_000_000),
            ("27, and the count too high", |r| r.count > MAX_DRAWN),
        ];
        for (name, is_so) in ways {
            self.count(name, by_27.as_ref().is_some_and(is_so));
        }
    }

    fn add_record(&mut self, record: Record) {
        let Record {
            group,
            count,
            first,
            schedules,
        } = record;
        self.count("reports", true);
        self.count("n = 2", group.n == 2);
        self.count("n from 3 to 16", (3..=16).contains(&group.n));
        self.count("n from 17 to 31", (17..MAX_CONTROLLERS).contains(&group.n));
        self.count("n = 32", group.n == MAX_CONTROLLERS);
        self.count("f = n - 1 above 1", group.f == group.n - 1 && group.f > 1);
        self.count("count 0", count == 0);
        self.count("count 4,000", count == MAX_DRAWN);
        self.count("k = 1", schedules == 1);
        self.count("k = 1,000", schedules == MAX_SCHEDULES);
        let last = u64::from(first) + u64::from(schedules) - 1;
        self.count("up to 4,294,967,295", last == u64::from(u32::MAX));
    }

    fn add_report(&mut self, report: &Report) {
        let [moved, stayed, rest] = [Some(Verdict::Move), Some(Verdict::Stay), None].map(|outcome| report.ended(outcome) > 0);
        self.count("some ended Move", moved);
        self.count("some ended Stay", stayed);
        self.count("some in the rest", rest);
        self.count("some of each", moved && stayed && rest);
        let schedules = &report.0;
        self.count("nobody left unstopped in one", schedules.iter().any(|one| !one.is_anyone_left));
        self.count("an ending that hangs on one standing by", schedules.iter().any(|one| one.hangs_on_standby));
        let reaching = report.reaching();
        self.count("the most reached by several numbers", reaching.len() > 1);
        self.count("not by the first number", reaching.first() != schedules.first().map(|one| &one.number));
        self.count("each kind of telegram", (0..4).all(|kind| schedules.iter().any(|one| one.sent[kind] > 0)));
    }

    fn print(&self) -> io::Result<()> {
        for (name, met) in &self.0 {
            println!("{met:>9} {name}");
        }
        match self.0.iter().find(|(_, met)| *met == 0) {
            Some((name, _)) => Err(io::Error::other(format!("never met: {name}"))),
            None => Ok(()),
        }
    }
}
