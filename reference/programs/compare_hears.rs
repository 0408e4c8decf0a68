//! Document 02, U5, tried: compare_hears COUNT SEED COMMAND...
//! COUNT schedules end where the premises are met. At every moment of them where they are, each running controller has an outcome; and
//! the bench program that COMMAND runs prints what the reference prints.

use reference::bench::lock::Lock;
use reference::bench::Bench;
use reference::generate::hearing::schedule;
use reference::hears::{all_hear, HearingLog};
use reference::process::output_of;
use reference::records::event::Event;
use reference::records::message::MessageKind;
use reference::rng::Rng;
use reference::text::bench_report;
use reference::vote_set::Verdict;
use std::io;
use std::process::ExitCode;

fn main() -> ExitCode {
    match compare() {
        Ok(()) => ExitCode::SUCCESS,
        Err(error) => {
            eprintln!("compare_hears: {error}");
            ExitCode::FAILURE
        }
    }
}

fn compare() -> io::Result<()> {
    let arguments: Vec<String> = std::env::args().skip(1).collect();
    let usage = || io::Error::other("usage: compare_hears COUNT SEED COMMAND...");
    let [count, seed, command @ ..] = &arguments[..] else {
        return Err(usage());
    };
    let count: usize = count.parse().map_err(|_| usage())?;
    let mut rng = Rng::new(seed.parse().map_err(|_| usage())?);
    let mut met = Met::default();
    for place in 0..count {
        let schedule = schedule(&mut rng);
        let found = if output_of(command, &schedule)? == bench_report(&schedule).as_bytes() {
            met.add(&schedule)
        } else {
            Err("the bench program prints something else".to_string())
        };
        found.map_err(|error| io::Error::other(format!("schedule {place}: {error}")))?;
    }
    println!("{count} schedules, each to where every running gate must have heard");
    for (name, count) in met.rows() {
        println!("{count:>9} {name}");
        if count == 0 {
            return Err(io::Error::other(format!("never met: {name}")));
        }
    }
    Ok(())
}

/// What the schedules met.
#[derive(Default)]
struct Met {
    moments: u64,
    as_many_as_f_down: u64,
    one_standing_by: u64,
    one_waited: u64,
    early_calls: u64,
    ends_moved: u64,
    ends_stayed: u64,
}

impl Met {
    /// Runs a schedule. At each moment at which the premises are met every running controller has an outcome, and the last is one.
    fn add(&mut self, schedule: &[u8]) -> Result<(), String> {
        let mut bench = Bench::default();
        let mut log = HearingLog::default();
        let mut waited = false;
        let mut heard = false;
        for (place, record) in schedule.chunks(Event::LENGTH).enumerate() {
            let early = is_early_call(&bench, record);
            if bench.step_record(record) != 0 {
                continue;
            }
            self.early_calls += u64::from(early);
            let (Ok(event), Some(lock)) = (Event::read(record), bench.lock()) else {
                continue;
            };
            if let Event::Order { .. } = event {
                log = HearingLog::default();
            }
            log.add(&event, lock);
            waited |= lock.controllers().iter().any(|c| c.is_waiting());
            heard = log.premises_met(lock);
            if heard && !all_hear(lock) {
                return Err(format!("after event {place} a running gate has no outcome"));
            }
            self.moments += u64::from(heard);
        }
        if !heard {
            return Err("its end does not meet the premises".to_string());
        }
        self.one_waited += u64::from(waited);
        self.add_end(bench.lock().expect("a lock"));
        Ok(())
    }

    fn add_end(&mut self, lock: &Lock) {
        let controllers = lock.controllers();
        let down = controllers.iter().filter(|c| !c.is_running()).count();
        let stopped = controllers.iter().filter(|c| c.is_stopped()).count();
        self.as_many_as_f_down += u64::from(down == usize::from(lock.group().f));
        self.one_standing_by += u64::from(stopped < down);
        let outcome = controllers
            .iter()
            .find(|c| c.is_running())
            .and_then(|c| c.outcome());
        match outcome {
            Some(Verdict::Move) => self.ends_moved += 1,
            _ => self.ends_stayed += 1,
        }
    }

    fn rows(&self) -> [(&'static str, u64); 7] {
        [
            ("moments at which the premises are met", self.moments),
            ("ends with f stopped or standing by", self.as_many_as_f_down),
            ("ends with one standing by", self.one_standing_by),
            ("schedules in which one waited", self.one_waited),
            ("help calls that came before stage 3", self.early_calls),
            ("ends Move", self.ends_moved),
            ("ends Stay", self.ends_stayed),
        ]
    }
}

/// Whether the record delivers a help call to a controller that is not at stage 3 yet.
fn is_early_call(bench: &Bench, record: &[u8]) -> bool {
    match (Event::read(record), bench.lock()) {
        (
            Ok(Event::Deliver {
                to,
                kind: MessageKind::Help,
                ..
            }),
            Some(lock),
        ) if lock.group().has(to) => lock.controller(to).phase().is_some_and(|phase| phase < 3),
        _ => false,
    }
}
