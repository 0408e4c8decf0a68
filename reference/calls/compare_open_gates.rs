//! Compares the exported count of gates still open (document 02, U9) with the reference, which counts over all controllers after every record:
//! compare_open_gates SCHEDULES, a file of schedules, each after its length in four bytes.

use reference::bench::lock::Lock;
use reference::bench::Bench;
use reference::controller::Controller;
use reference::records::event::Event;
use reference::session::Session;
use reference::text::MAX_SCHEDULE;
use std::collections::BTreeMap;

mod proved {
    #[link(name = "bench_output", kind = "static")]
    unsafe extern "C" {
        // a slice passes as pointer and length
        fn bench_open_gates(schedule: *const u8, length: usize) -> u8;
    }

    /// How many gates are still open after a schedule; 255 if it is too long to be run.
    pub fn open_gates(schedule: &[u8]) -> u8 {
        unsafe { bench_open_gates(schedule.as_ptr(), schedule.len()) }
    }
}

/// Up to so many records every record is followed by a call; longer schedules are called at as many places, evenly spread, and at their end.
const PLACES: usize = 80;

const TOO_LONG: u8 = 255;

/// What was met where a call was made; a row that is 0 fails.
const ROWS: [&str; 14] = [
    "calls, the count alike",
    "locks that set the count",
    "orders that raised it",
    "orders with some standing by",
    "orders refused by 13",
    "stops that lowered it",
    "stops of one with an outcome, or standing by",
    "bells that lowered it",
    "arbiter's words that lowered it",
    "arbiter's words to one with an outcome",
    "restores",
    "steps back that raised it",
    "steps back that lowered it",
    "schedules too long to be run",
];

fn main() {
    let path = std::env::args().nth(1).expect("usage: compare_open_gates SCHEDULES");
    let file = std::fs::read(path).expect("the file of schedules is read");
    let mut met = BTreeMap::new();
    let mut rest = &file[..];
    let mut index = 0;
    while let Some((length, after)) = rest.split_first_chunk::<4>() {
        let (schedule, after) = after.split_at(u32::from_be_bytes(*length) as usize);
        compare(index, schedule, &mut |row| *met.entry(row).or_insert(0) += 1);
        rest = after;
        index += 1;
    }
    println!("{index} schedules, no difference");
    let mut missing = Vec::new();
    for row in ROWS {
        let count = met.get(row).copied().unwrap_or(0);
        println!("{count:>9} {row}");
        if count == 0 {
            missing.push(row);
        }
    }
    assert!(missing.is_empty(), "never met: {}", missing.join(", "));
}

fn compare(index: usize, schedule: &[u8], meet: &mut impl FnMut(&'static str)) {
    if schedule.len() > MAX_SCHEDULE {
        assert_eq!(proved::open_gates(schedule), TOO_LONG, "schedule {index} is too long");
        meet("schedules too long to be run");
        return;
    }
    let mut session = Session::default();
    assert_eq!(proved::open_gates(&[]), session.bench().open_gates(), "a new bench");
    let records = schedule.len().div_ceil(Event::LENGTH);
    let stride = records.div_ceil(PLACES).max(1);
    for (k, record) in schedule.chunks(Event::LENGTH).enumerate() {
        let before = Before::of(session.bench(), record);
        let answer = session.step_record(record);
        if k % stride != 0 && k + 1 != records {
            continue;
        }
        let end = schedule.len().min((k + 1) * Event::LENGTH);
        let open = session.bench().open_gates();
        assert_eq!(proved::open_gates(&schedule[..end]), open, "schedule {index}, after record {k}");
        meet("calls, the count alike");
        if let Ok(event) = Event::read(record) {
            note(&before, &event, answer, open, meet);
        }
    }
}

/// What a bench shows before a record.
struct Before {
    open: u8,
    some_standing_by: bool,
    /// Has the controller that the arbiter's word is for an outcome?
    has_outcome: bool,
}

impl Before {
    fn of(bench: &Bench, record: &[u8]) -> Before {
        let controllers = bench.lock().map_or(&[][..], Lock::controllers);
        let stands_by = |c: &Controller| !c.is_running() && !c.is_stopped();
        let named = match Event::read(record) {
            Ok(Event::Decision { id, .. }) => id,
            _ => 0,
        };
        Before {
            open: bench.open_gates(),
            some_standing_by: controllers.iter().any(stands_by),
            has_outcome: controllers.iter().any(|c| c.id() == named && c.outcome().is_some()),
        }
    }
}

/// Which rows an event belongs to.
fn note(before: &Before, event: &Event, answer: u8, open: u8, meet: &mut impl FnMut(&'static str)) {
    let lowered = open < before.open;
    match (event, answer) {
        (Event::Lock { .. }, 0) => meet("locks that set the count"),
        (Event::Order { .. }, 13) => meet("orders refused by 13"),
        (Event::Order { .. }, 0) => {
            if before.some_standing_by {
                meet("orders with some standing by");
            }
            if before.open < open {
                meet("orders that raised it");
            }
        }
        (Event::Stop { .. }, 0) if lowered => meet("stops that lowered it"),
        (Event::Stop { .. }, 0) => meet("stops of one with an outcome, or standing by"),
        (Event::Timeout { .. }, 0) if lowered => meet("bells that lowered it"),
        (Event::Decision { .. }, 0) if lowered => meet("arbiter's words that lowered it"),
        (Event::Decision { .. }, 0) if before.has_outcome => meet("arbiter's words to one with an outcome"),
        (Event::Restore { .. }, 0) => meet("restores"),
        (Event::StepBack, 0) if before.open < open => meet("steps back that raised it"),
        (Event::StepBack, 0) if lowered => meet("steps back that lowered it"),
        _ => {}
    }
}
