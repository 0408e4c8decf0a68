//! Document 02, U11: a step back on the bench.

use crate::support::*;
use reference::bench::Bench;
use reference::generate::steps_back::schedule as woven;
use reference::records::event::{Event, Fields};
use reference::rng::Rng;
use reference::session::Session;
use reference::step_back_tally::StepBackTally;
use reference::text::{bench_report, bench_state};

const BACK: Event = Event::StepBack;

/// A new session that gave those answers.
fn session_after(events: &[(Event, u8)]) -> Session {
    let mut session = Session::default();
    answer_all(&mut session, events);
    session
}

fn answer_all(session: &mut Session, events: &[(Event, u8)]) {
    for (index, (event, answer)) in events.iter().enumerate() {
        assert_eq!(session.step(event), *answer, "{index}: {event:?}");
    }
}

fn accepted(events: &[Event]) -> Vec<(Event, u8)> {
    events.iter().map(|event| (*event, 0)).collect()
}

/// "Event kind 9, all fields 0"
#[test]
fn the_record() {
    let mut bytes = [0xA5; Event::LENGTH];
    assert_eq!(BACK.write(&mut bytes), 0);
    assert_eq!(bytes, [0x4C, 0x45, 9, 0, 0, 0, 0, 0, 0, 0]);
    assert_eq!(Event::read(&bytes), Ok(BACK));
    for at in 3..Event::LENGTH {
        let mut other = bytes;
        other[at] = 1;
        assert_eq!(Event::read(&other), Err(3), "byte {at}");
    }
    let fields = |kind| Fields {
        kind,
        a: 0,
        b: 0,
        c: 0,
        value: 0,
    };
    assert_eq!(Event::from_fields(fields(9)), Some(BACK));
    assert_eq!(Event::from_fields(fields(11)), None);
}

/// "Refused: 26, nothing to undo; after question 5." "lock events cannot be undone".
#[test]
fn nothing_to_undo() {
    let session = session_after(&[(BACK, 5), (lock(2, 1), 0), (BACK, 26), (lock(2, 1), 6)]);
    assert_eq!(*session.bench(), bench_after(&[lock(2, 1)]));
    // As a whole schedule.
    let bytes = schedule(&[BACK, lock(2, 1), BACK, order(1), BACK, BACK]);
    let lines = "0 5\n1 0\n2 26\n3 0\n4 0\n5 26\nC 1 0 - 0\nC 2 0 - 0\nT 0 0 0 0\n";
    assert_eq!(bench_report(&bytes), lines);
}

/// Every accepted event of some lists is undone, and then played again: the bench is the one before, and the one after.
#[test]
fn each_event_undone_and_again() {
    let ballots = [
        &[ballot_lock(3, 2), order(1)][..],
        &putting(&[MOVE, STAY, STAY]),
        &[
            open_ballot(1, 1),
            deliver_ballot(ASK, 1, 2, 1),
            deliver_ballot(PROMISE, 2, 1, 1),
            deliver_ballot(PUT, 1, 2, 1),
            deliver_ballot(TAKEN, 2, 1, 1),
            decision(3, MOVE),
        ],
    ];
    let helped = [
        lock(3, 1),
        order(1),
        vote(1, true, 10),
        vote(2, true, 20),
        vote(3, true, 30),
        timeout(3),
        deliver(HELP, 3, 2),
        timeout(2),
        timeout(2),
        deliver(HELPED, 2, 3),
        save(3),
        stop(3),
        restore(3),
        decision(2, STAY),
    ];
    for events in [listing(true), helped.to_vec(), ballots.concat()] {
        let mut session = session_after(&[(events[0], 0)]);
        for event in &events[1..] {
            let before = session.bench().clone();
            answer_all(&mut session, &[(*event, 0)]);
            let after = session.bench().clone();
            answer_all(&mut session, &[(BACK, 0)]);
            assert_eq!(*session.bench(), before, "{event:?} undone");
            answer_all(&mut session, &[(*event, 0)]);
            assert_eq!(*session.bench(), after, "{event:?} again");
        }
        // And all of them, one after the other.
        for _ in &events[1..] {
            answer_all(&mut session, &[(BACK, 0)]);
        }
        answer_all(&mut session, &[(BACK, 26)]);
        assert_eq!(*session.bench(), bench_after(&events[..1]));
    }
}

/// "An order can be undone; its number may then be opened again", and a lower one too.
#[test]
fn an_order_again() {
    let session = session_after(&[
        (lock(2, 1), 0),
        (order(7), 0),
        (order(7), 12),
        (BACK, 0),
        (vote(1, true, 0), 14),
        (order(3), 0),
        (BACK, 0),
        (order(7), 0),
    ]);
    assert_eq!(*session.bench(), bench_after(&[lock(2, 1), order(7)]));
}

/// "undoes the last accepted event that is neither a step back nor undone already"
#[test]
fn a_step_back_is_not_undone() {
    let mut session = session_after(&accepted(&[lock(2, 1), order(1), stop(1), stop(2)]));
    answer_all(&mut session, &[(BACK, 0), (BACK, 0)]);
    assert_eq!(*session.bench(), bench_after(&[lock(2, 1), order(1)]));
    answer_all(&mut session, &[(stop(2), 0), (BACK, 0), (BACK, 0), (BACK, 26)]);
    assert_eq!(*session.bench(), bench_after(&[lock(2, 1)]));
}

/// Refused events are not remembered, those that changed nothing are.
#[test]
fn what_is_remembered() {
    let start = [lock(2, 1), order(1), vote(2, true, 5), deliver(VOTE, 2, 1)];
    let mut session = session_after(&accepted(&start));
    answer_all(&mut session, &[(timeout(1), 16), (restore(1), 15), (deliver(VOTE, 2, 1), 0)]);
    assert_eq!(session.remembered(), 4);
    answer_all(&mut session, &[(BACK, 0)]);
    assert_eq!(*session.bench(), bench_after(&start));
    answer_all(&mut session, &[(BACK, 0)]);
    assert_eq!(*session.bench(), bench_after(&start[..3]));
}

/// "Up to 64 such events are remembered: one more pushes out the oldest": after 65, 64 steps back and then 26.
#[test]
fn sixty_four() {
    let mut session = session_after(&accepted(&[lock(2, 1), order(1)]));
    answer_all(&mut session, &accepted(&[save(1); 64]));
    assert_eq!(session.remembered(), 64);
    answer_all(&mut session, &accepted(&[BACK; 64]));
    answer_all(&mut session, &[(BACK, 26)]);
    assert_eq!(*session.bench(), bench_after(&[lock(2, 1), order(1)]));
    // One undone makes no room for one pushed out.
    answer_all(&mut session, &[(vote(1, true, 0), 0), (BACK, 0), (BACK, 26)]);
    let mut session = session_after(&accepted(&[lock(2, 1), order(1)]));
    answer_all(&mut session, &accepted(&[save(1); 63]));
    answer_all(&mut session, &accepted(&[BACK; 64]));
    answer_all(&mut session, &[(BACK, 26)]);
    assert_eq!(*session.bench(), bench_after(&[lock(2, 1)]));
}

/// "cards, telegrams, arbiter and positions"; and takings.
#[test]
fn every_field() {
    // A card: there is none to restore by.
    session_after(&[
        (lock(2, 1), 0),
        (order(1), 0),
        (save(1), 0),
        (BACK, 0),
        (stop(1), 0),
        (restore(1), 19),
    ]);
    // Telegrams, and T.
    let session = session_after(&[
        (lock(2, 1), 0),
        (order(1), 0),
        (vote(1, true, 5), 0),
        (BACK, 0),
        (deliver(VOTE, 1, 2), 17),
    ]);
    assert!(bench_state(session.bench()).ends_with("T 0 0 0 0\n"));
    // A position.
    let mut session = session_after(&accepted(&listing(true)));
    assert_eq!(positions(session.bench()), [500, -250]);
    answer_all(&mut session, &[(BACK, 0)]);
    assert_eq!(positions(session.bench()), [500, 0]);
    // A taking: the word that it chose is chosen no more.
    let start = [&[ballot_lock(3, 2), order(1)][..], &putting(&[MOVE, STAY, STAY])].concat();
    let mut session = session_after(&accepted(&start));
    answer_all(
        &mut session,
        &[
            (open_ballot(1, 1), 0),
            (BACK, 0),
            (open_ballot(1, 1), 0),
            (open_ballot(1, 1), 28),
            (deliver_ballot(ASK, 1, 2, 1), 0),
            (deliver_ballot(PROMISE, 2, 1, 1), 0),
            (deliver_ballot(PUT, 1, 2, 1), 0),
            (BACK, 0),
            (decision(1, MOVE), 18),
            (deliver_ballot(PUT, 1, 2, 1), 0),
            (decision(1, MOVE), 0),
        ],
    );
}

/// The words given are "the arbiter": both were put, Move is given and taken back, and then Stay.
#[test]
fn the_other_word() {
    let start = [&[lock(2, 1), order(1)][..], &putting(&[MOVE, STAY])].concat();
    let mut session = session_after(&accepted(&start));
    let given = [
        (decision(1, MOVE), 0),
        (decision(2, STAY), 18),
        (BACK, 0),
        (decision(2, STAY), 0),
        (decision(1, MOVE), 18),
    ];
    answer_all(&mut session, &given);
    assert_eq!(outcomes(session.bench()), [None, Some(STAY)]);
    assert_eq!(positions(session.bench()), [0, 0]);
}

/// A bench alone remembers nothing.
#[test]
fn without_memory() {
    let mut bench = Bench::default();
    refuse_all(&mut bench, 5, &[BACK]);
    accept_all(&mut bench, &[lock(2, 1), order(1)]);
    refuse_all(&mut bench, 26, &[BACK]);
}

/// On drawn schedules each step back is held against the text, and the bench against the events left.
#[test]
fn drawn_schedules() {
    let mut rng = Rng::new(5);
    let mut tally = StepBackTally::default();
    for place in 0..60 {
        let added = tally.add(&woven(&mut rng));
        assert_eq!(added, Ok(()), "schedule {place}");
    }
    let (_, accepted) = &tally.rows()[0];
    assert!(*accepted > 500, "{accepted} steps back");
}
