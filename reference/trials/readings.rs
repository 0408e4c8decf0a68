//! Places of document 01 that could be read in two ways, on the bench.

use crate::support::*;
use reference::bench::Bench;
use reference::members::Members;
use reference::text::{bench_report, bench_state};

/// n = 3, f = 1: 2 and 3 wait for help with their own votes alone.
fn two_waiting() -> Bench {
    bench_after(&[
        lock(3, 1),
        order(5),
        vote(1, true, 10),
        vote(2, true, 20),
        vote(3, true, 30),
        timeout(1),
        timeout(2),
        timeout(2),
        timeout(3),
    ])
}

#[test]
fn waiting_one_with_the_word_goes_on_answering() {
    let mut bench = two_waiting();
    accept_all(
        &mut bench,
        &[timeout(1), decision(2, STAY), deliver(HELP, 3, 2)],
    );
    assert_eq!(
        bench_state(&bench),
        "C 1 3 - 0\nC 2 3 S 0\nC 3 3 - 0\nT 3 3 2 1\n"
    );
    accept_all(&mut bench, &[deliver(HELPED, 2, 3)]);
    assert_eq!(proposals(&bench), [STAY, STAY]);
}

/// Document 02, U4: kept at stage 0, come again at stages 1 and 2, answered at the bell, and not again.
#[test]
fn help_call_before_phase_3_is_kept_and_answered_once() {
    let mut bench = bench_after(&[
        lock(3, 1),
        order(1),
        vote(3, true, 0),
        timeout(3),
        deliver(HELP, 3, 2),
        vote(2, true, 0),
        deliver(HELP, 3, 2),
        timeout(2),
        deliver(HELP, 3, 2),
    ]);
    refuse_all(&mut bench, 17, &[deliver(HELPED, 2, 3)]);
    assert_eq!(
        bench.lock().expect("a lock").controller(2).kept_calls(),
        Members::only(3)
    );
    accept_all(
        &mut bench,
        &[timeout(2), deliver(HELP, 3, 2), deliver(HELP, 3, 2)],
    );
    // 2 and 3 vote to 1 each, 2 acknowledges to 1, both call, 2 answers once.
    assert_eq!(
        bench_state(&bench),
        "C 1 0 - 0\nC 2 3 - 0\nC 3 3 - 0\nT 2 1 2 1\n"
    );
    accept_all(&mut bench, &[deliver(HELPED, 2, 3), deliver(HELPED, 2, 3)]);
    assert_eq!(proposals(&bench), [STAY]);
}

#[test]
fn late_vote_is_not_added_to_a_frozen_sheet() {
    let mut bench = bench_after(&[
        lock(2, 1),
        order(1),
        vote(1, true, 1),
        vote(2, true, 2),
        timeout(1),
        deliver(VOTE, 2, 1),
        deliver(VOTE, 1, 2),
        timeout(2),
        deliver(ACK, 2, 1),
        timeout(1),
    ]);
    // 2's acknowledgement is complete and so is the join, but 1's own is not.
    assert_eq!(proposals(&bench), [MOVE]);
    accept_all(&mut bench, &[deliver(ACK, 1, 2), timeout(2)]);
    assert_eq!(proposals(&bench), [MOVE, STAY]);
}

#[test]
fn acknowledgement_before_the_own_vote_is_kept() {
    let bench = bench_after(&[
        lock(2, 1),
        order(1),
        vote(1, true, 1),
        timeout(1),
        deliver(ACK, 1, 2),
        vote(2, true, 2),
        timeout(2),
        timeout(2),
    ]);
    // Held at the second timeout: a word of its join, and no help call.
    assert_eq!(proposals(&bench), [STAY]);
    assert!(!is_waiting(&bench, 2));
}

#[test]
fn restore_takes_the_outcome_of_this_order_alone() {
    let mut bench = bench_after(&listing(true));
    accept_all(&mut bench, &[save(1), stop(1), restore(1)]);
    assert_eq!(
        bench_state(&bench),
        "C 1 9 M 500\nC 2 3 M -250\nT 2 2 0 0\n"
    );
    accept_all(&mut bench, &[stop(1), order(2), restore(1)]);
    assert_eq!(
        bench_state(&bench),
        "C 1 9 - 500\nC 2 0 - -250\nT 0 0 0 0\n"
    );
    // Standing by it takes a word of any phase of the others, and does not move.
    accept_all(
        &mut bench,
        &[vote(2, true, 77), timeout(2), timeout(2), decision(1, STAY)],
    );
    accept_all(&mut bench, &[decision(2, STAY), order(3)]);
    assert_eq!(
        bench_state(&bench),
        "C 1 0 - 500\nC 2 0 - -250\nT 0 0 0 0\n"
    );
}

#[test]
fn newest_card_counts() {
    let mut bench = bench_after(&listing(true));
    accept_all(
        &mut bench,
        &[
            save(1),
            stop(1),
            restore(1),
            order(2),
            save(1),
            stop(1),
            restore(1),
        ],
    );
    assert_eq!(outcomes(&bench), [None, None]);
    let position = bench
        .lock()
        .and_then(|lock| lock.checkpoint(1))
        .map(|card| card.position);
    assert_eq!(position, Some(500));
}

#[test]
fn standby_shows_move_at_its_old_position() {
    let mut bench = bench_after(&[
        lock(2, 1),
        order(1),
        vote(1, true, 100),
        vote(2, true, 200),
        deliver(VOTE, 2, 1),
        save(2),
        stop(2),
        timeout(1),
        timeout(1),
        restore(2),
        decision(2, MOVE),
        decision(1, MOVE),
    ]);
    assert_eq!(bench_state(&bench), "C 1 3 M 100\nC 2 9 M 0\nT 2 1 0 0\n");
    accept_all(&mut bench, &[order(2)]);
    assert_eq!(bench_state(&bench), "C 1 0 - 100\nC 2 0 - 0\nT 0 0 0 0\n");
}

#[test]
fn bench_program_at_its_ends() {
    assert_eq!(bench_report(&[]), "T 0 0 0 0\n");
    assert_eq!(bench_report(&[0x4C]), "0 1\nT 0 0 0 0\n");
    let mut short = schedule(&[lock(2, 1)]);
    short.extend([0x4C, 0x45]);
    assert_eq!(
        bench_report(&short),
        "0 0\n1 1\nC 1 0 - 0\nC 2 0 - 0\nT 0 0 0 0\n"
    );
    assert_eq!(bench_report(&[0; 40_961]), "- 1\n");
    let longest = bench_report(&[0; 40_960]);
    assert!(longest.starts_with("0 2\n") && longest.ends_with("4095 2\nT 0 0 0 0\n"));
}

/// What reading refuses has its number and leaves the bench as it is.
#[test]
fn records_that_reading_refuses() {
    let mut records = schedule(&[lock(2, 1), order(1), stop(1), stop(2)]);
    records[21] = 0x4B;
    records[34] = 1;
    let expected = "0 0\n1 0\n2 2\n3 3\nC 1 0 - 0\nC 2 0 - 0\nT 0 0 0 0\n";
    assert_eq!(bench_report(&records), expected);
}
