//! What document 01 claims of every run, tried on generated input.

use crate::support::*;
use reference::bench::lock::Lock;
use reference::bench::Bench;
use reference::clean::OrderLog;
use reference::generate::{frames, schedules};
use reference::records::checkpoint::Checkpoint;
use reference::records::event::Event;
use reference::records::telegram::Telegram;
use reference::rng::Rng;
use reference::vote_set::Verdict;
use reference::{frame, text};

/// What was seen of one order.
struct Seen {
    log: OrderLog,
    outcome: Option<Verdict>,
}

#[test]
fn every_run_keeps_the_claims() {
    let mut rng = Rng::new(20);
    let (mut clean, mut ended) = (0, 0);
    for place in 0..600 {
        let schedule = schedules::schedule(&mut rng, place);
        if schedule.len() <= text::MAX_SCHEDULE {
            let (more_clean, more_ended) = check(&schedule);
            clean += more_clean;
            ended += more_ended;
        }
    }
    assert!(clean > 1_000);
    assert!(ended > 1_000);
}

/// Runs a schedule; answers how many second timeouts came in a clean order, and at how many moments a clean order had
/// ended everywhere.
fn check(schedule: &[u8]) -> (usize, usize) {
    let mut bench = Bench::default();
    let mut order: Option<Seen> = None;
    let (mut clean, mut ended) = (0, 0);
    for record in schedule.chunks(Event::LENGTH) {
        let before = bench.clone();
        if bench.step_record(record) != 0 {
            assert_eq!(bench, before);
            continue;
        }
        let event = Event::read(record).expect("an event");
        let lock = bench.lock().expect("a lock");
        if let Event::Order { .. } = event {
            order = Some(Seen {
                log: OrderLog::new(lock.group()),
                outcome: None,
            });
        }
        let Some(seen) = &mut order else { continue };
        let is_second_timeout = seen.log.add(&event);
        check_agreement(lock, seen);
        check_messages(lock);
        if let (Event::Timeout { id }, true) = (event, is_second_timeout && seen.log.is_clean()) {
            let expected = if seen.log.all_willing() { MOVE } else { STAY };
            assert_eq!(lock.controller(id).outcome(), Some(expected));
            clean += 1;
        }
        if seen.log.is_clean() && lock.controllers().iter().all(|c| c.outcome().is_some()) {
            check_clean_end(&bench, lock);
            ended += 1;
        }
    }
    (clean, ended)
}

/// Document 02, U10: "For a clean order that has ended everywhere, the figure is to be exactly 2fn, fn of each kind,
/// with no help call and no answer, willing or not."
fn check_clean_end(bench: &Bench, lock: &Lock) {
    let group = lock.group();
    let of_each = u64::from(group.f) * u64::from(group.n);
    assert_eq!(text::sent_by_kind(bench), [of_each, of_each, 0, 0]);
}

/// Any two outcomes held for one order are the same.
fn check_agreement(lock: &Lock, seen: &mut Seen) {
    for controller in lock.controllers() {
        if let Some(outcome) = controller.outcome() {
            assert_eq!(*seen.outcome.get_or_insert(outcome), outcome);
        }
    }
}

/// "In any order, kinds 1 and 2 together are at most 2fn telegrams." Every message sent can be written.
fn check_messages(lock: &Lock) {
    let group = lock.group();
    let count = |kind| lock.sent().iter().filter(|m| m.kind == kind).count();
    let bound = 2 * usize::from(group.f) * usize::from(group.n);
    assert!(count(VOTE) + count(ACK) <= bound);
    if let Some(message) = lock.sent().last() {
        let mut bytes = vec![0; message.form().length()];
        assert_eq!(message.write(&mut bytes), 0);
        assert_eq!(Telegram::read(&bytes), Ok(Telegram::Votes(*message)));
    }
    for id in group.ids() {
        if let Some(checkpoint) = lock.checkpoint(id) {
            let mut bytes = [0; Checkpoint::LENGTH];
            assert_eq!(checkpoint.write(&mut bytes), 0);
            assert_eq!(Checkpoint::read(&bytes), Ok(checkpoint));
        }
    }
}

/// What reading lets through is written as it was read.
#[test]
fn records_read_are_written_alike() {
    let mut rng = Rng::new(21);
    let mut written = 0;
    for _ in 0..20_000 {
        let frame = frames::frame(&mut rng);
        let slice = &frame[2..2 + usize::from(frame[1])];
        let mut buffer = vec![0; slice.len()];
        let answer = match frame[0] {
            frame::READ_MESSAGE => Telegram::read(slice).map(|t| t.write(&mut buffer)),
            frame::READ_CHECKPOINT => Checkpoint::read(slice).map(|c| c.write(&mut buffer)),
            frame::READ_EVENT => Event::read(slice).map(|e| e.write(&mut buffer)),
            _ => continue,
        };
        if let Ok(number) = answer {
            assert_eq!((number, &buffer[..]), (0, slice));
            written += 1;
        }
    }
    assert!(written > 1_000);
}

/// The same seed gives the same schedules.
#[test]
fn generation_is_repeatable() {
    let make = || schedules::schedule(&mut Rng::new(22), 100);
    assert_eq!(make(), make());
}
