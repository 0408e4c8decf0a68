//! The questions that the bench puts, in their sequence.

use crate::support::*;
use reference::bench::Bench;
use reference::records::event::Event;
use reference::text::bench_state;

fn every_event_but_lock() -> Vec<Event> {
    vec![
        order(1),
        vote(1, true, 0),
        deliver(VOTE, 2, 1),
        timeout(1),
        decision(1, STAY),
        stop(1),
        save(1),
        restore(1),
    ]
}

#[test]
fn question_5_before_all_others() {
    refuse_all(&mut Bench::default(), 5, &every_event_but_lock());
    let worse = [order(0), vote(0, true, 99_999), deliver(HELP, 7, 7)];
    refuse_all(&mut Bench::default(), 5, &worse);
}

#[test]
fn questions_4_and_6_of_a_second_lock() {
    let mut bench = bench_after(&[lock(2, 1)]);
    refuse_all(&mut bench, 4, &[lock(33, 1), lock(2, 2)]);
    refuse_all(&mut bench, 6, &[lock(2, 1), lock(32, 31)]);
}

#[test]
fn questions_7_10_and_11_before_14() {
    let mut bench = bench_after(&[lock(3, 1)]);
    refuse_all(
        &mut bench,
        7,
        &[vote(0, true, 20_001), vote(4, true, 0), stop(0), save(4)],
    );
    refuse_all(
        &mut bench,
        7,
        &[
            deliver(VOTE, 2, 2),
            deliver(VOTE, 0, 1),
            deliver(VOTE, 1, 4),
        ],
    );
    refuse_all(&mut bench, 10, &[deliver(HELP, 1, 2), deliver(VOTE, 1, 3)]);
    refuse_all(&mut bench, 11, &[vote(1, true, 20_001)]);
    refuse_all(&mut bench, 14, &every_event_but_lock()[1..]);
}

#[test]
fn question_10_ways() {
    // n = 5, f = 2: backups 1 and 2, second backup 3.
    let mut bench = bench_after(&[lock(5, 2), order(1)]);
    let not_sent = [
        deliver(VOTE, 5, 1),
        deliver(VOTE, 1, 2),
        deliver(VOTE, 2, 3),
        deliver(VOTE, 3, 2),
        deliver(ACK, 1, 5),
        deliver(ACK, 1, 2),
        deliver(ACK, 3, 1),
        deliver(HELP, 3, 5),
        deliver(HELP, 5, 3),
        deliver(HELPED, 4, 5),
    ];
    refuse_all(&mut bench, 17, &not_sent);
    let no_way = [
        deliver(VOTE, 4, 3),
        deliver(VOTE, 1, 4),
        deliver(VOTE, 3, 4),
        deliver(ACK, 3, 4),
        deliver(ACK, 4, 1),
        deliver(HELP, 1, 3),
        deliver(HELP, 3, 2),
        deliver(HELPED, 2, 3),
        deliver(HELPED, 3, 2),
    ];
    refuse_all(&mut bench, 10, &no_way);
}

#[test]
fn questions_8_12_and_13_of_an_order() {
    let mut bench = bench_after(&[lock(2, 1)]);
    refuse_all(&mut bench, 8, &[order(0)]);
    accept_all(&mut bench, &[order(7)]);
    refuse_all(&mut bench, 8, &[order(0)]);
    refuse_all(&mut bench, 12, &[order(1), order(7)]);
    refuse_all(&mut bench, 13, &[order(8), order(u32::MAX)]);
    // 13 looks at running controllers alone.
    accept_all(
        &mut bench,
        &[stop(1), save(2), stop(2), restore(2), order(u32::MAX)],
    );
    refuse_all(&mut bench, 12, &[order(u32::MAX), order(1)]);
}

#[test]
fn question_15_by_condition() {
    let mut bench = bench_after(&listing(true));
    refuse_all(&mut bench, 15, &[restore(1)]);
    accept_all(&mut bench, &[save(1), stop(1)]);
    let stopped = [
        vote(1, true, 0),
        timeout(1),
        decision(1, STAY),
        stop(1),
        save(1),
    ];
    refuse_all(&mut bench, 15, &stopped);
    refuse_all(&mut bench, 15, &[deliver(VOTE, 2, 1)]);
    accept_all(&mut bench, &[deliver(VOTE, 1, 2), restore(1)]);
    let standby = [vote(1, true, 0), timeout(1), restore(1), deliver(ACK, 2, 1)];
    refuse_all(&mut bench, 15, &standby);
    accept_all(&mut bench, &[save(1), stop(1)]);
}

#[test]
fn question_16_by_phase() {
    let mut bench = bench_after(&[lock(3, 1), order(1)]);
    refuse_all(&mut bench, 16, &[timeout(1), decision(1, STAY)]);
    accept_all(&mut bench, &[vote(1, true, 0), vote(3, true, 0)]);
    refuse_all(
        &mut bench,
        16,
        &[vote(1, true, 0), decision(1, STAY), vote(3, true, 0)],
    );
    accept_all(&mut bench, &[timeout(1)]);
    refuse_all(&mut bench, 16, &[vote(1, true, 0), decision(1, STAY)]);
    accept_all(&mut bench, &[timeout(1), timeout(3)]);
    refuse_all(&mut bench, 16, &[vote(1, true, 0), timeout(1), timeout(3)]);
    accept_all(&mut bench, &[decision(1, STAY)]);
}

#[test]
fn question_17_messages_outlive_a_stop_and_end_with_the_order() {
    let mut bench = bench_after(&[lock(2, 1), order(1), vote(1, true, 0), save(1), stop(1)]);
    let again = [deliver(VOTE, 1, 2), deliver(VOTE, 1, 2)];
    accept_all(&mut bench, &again);
    assert_eq!(bench_state(&bench), "C 1 8 - 0\nC 2 0 - 0\nT 1 0 0 0\n");
    accept_all(&mut bench, &[stop(2), restore(1), order(2)]);
    assert_eq!(bench_state(&bench), "C 1 0 - 0\nC 2 8 - 0\nT 0 0 0 0\n");
    refuse_all(&mut bench, 15, &[deliver(VOTE, 1, 2)]);
    refuse_all(&mut bench, 17, &[deliver(VOTE, 2, 1), deliver(ACK, 2, 1)]);
}

#[test]
fn question_18_one_word_for_all() {
    // 3 puts Stay, 2 puts Move as in trial 5.
    let mut bench = bench_after(&[
        lock(3, 1),
        order(1),
        vote(1, true, 10),
        vote(2, true, 20),
        vote(3, true, 30),
        deliver(VOTE, 2, 1),
        deliver(VOTE, 3, 1),
        timeout(1),
        timeout(2),
        timeout(2),
        timeout(3),
    ]);
    refuse_all(&mut bench, 18, &[decision(2, STAY), decision(3, MOVE)]);
    accept_all(
        &mut bench,
        &[
            deliver(HELP, 3, 2),
            deliver(HELPED, 2, 3),
            deliver(ACK, 1, 2),
            timeout(1),
        ],
    );
    assert_eq!(proposals(&bench), [STAY, MOVE, MOVE]);
    // Put by one stopped since, given to one that put another, and given again.
    accept_all(&mut bench, &[stop(3), decision(2, STAY), decision(2, STAY)]);
    refuse_all(&mut bench, 18, &[decision(1, MOVE), decision(2, MOVE)]);
    accept_all(&mut bench, &[decision(1, STAY)]);
    assert_eq!(outcomes(&bench), [Some(STAY), Some(STAY), None]);
}

/// "given" is any accepted arbiter event, also one to a controller that already had an outcome.
#[test]
fn question_18_given_to_one_with_an_outcome() {
    // 3 decides with 1's complete acknowledgement; 1 and 2 do not hear enough.
    let mut bench = bench_after(&[
        lock(3, 1),
        order(1),
        vote(1, true, 10),
        vote(2, true, 20),
        vote(3, true, 30),
        deliver(VOTE, 2, 1),
        deliver(VOTE, 3, 1),
        timeout(1),
        deliver(ACK, 1, 3),
        timeout(3),
        timeout(2),
        timeout(2),
        timeout(1),
    ]);
    assert_eq!(outcomes(&bench), [None, None, Some(MOVE)]);
    assert_eq!(proposals(&bench), [MOVE]);
    accept_all(&mut bench, &[decision(3, MOVE)]);
    assert_eq!(bench.lock().and_then(|lock| lock.decision()), Some(MOVE));
    // A controller that waits takes the word, puts none afterwards and goes on answering.
    accept_all(&mut bench, &[decision(2, MOVE), deliver(ACK, 1, 2)]);
    assert_eq!(proposals(&bench), [MOVE]);
    assert_eq!(positions(&bench), [0, 20, 30]);
}
