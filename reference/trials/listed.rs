//! Document 01, "Trials".

use crate::support::*;
use reference::bench::Bench;
use reference::text::{bench_report, bench_state};

/// "1★ The listing."
#[test]
fn trial_1_listing() {
    let expected = "0 0\n1 0\n2 0\n3 0\n4 0\n5 0\n6 0\n7 0\n8 0\n9 0\n10 0\n11 0\n\
                    C 1 3 M 500\nC 2 3 M -250\nT 2 2 0 0\n";
    assert_eq!(bench_report(&schedule(&listing(true))), expected);
}

/// The listing's first records, byte by byte.
#[test]
fn trial_1_bytes() {
    let bytes = schedule(&listing(true));
    assert_eq!(bytes[..10], [0x4C, 0x45, 0, 2, 1, 0, 0, 0, 0, 0]);
    assert_eq!(bytes[10..20], [0x4C, 0x45, 1, 0, 0, 0, 0, 0, 0, 1]);
    assert_eq!(bytes[30..40], [0x4C, 0x45, 2, 2, 1, 0, 255, 255, 255, 6]);
    assert_eq!(bytes[80..90], [0x4C, 0x45, 3, 1, 2, 2, 0, 0, 0, 0]);
}

/// "2★ The same with 2 unwilling: both S, nothing put."
#[test]
fn trial_2_one_unwilling() {
    let bench = bench_after(&listing(false));
    let state = "C 1 3 S 0\nC 2 3 S 0\nT 2 2 0 0\n";
    assert_eq!(bench_state(&bench), state);
    assert!(proposals(&bench).is_empty());
}

/// "3★ n = 2, f = 1, willing, no delivery, all bells: both put Stay."
#[test]
fn trial_3_no_delivery() {
    let mut bench = bench_after(&[
        lock(2, 1),
        order(1),
        vote(1, true, 1),
        vote(2, true, 1),
        timeout(1),
        timeout(2),
        timeout(1),
    ]);
    assert_eq!(proposals(&bench), [STAY]);
    accept_all(&mut bench, &[timeout(2)]);
    assert_eq!(proposals(&bench), [STAY, STAY]);
    assert_eq!(bench_state(&bench), "C 1 3 - 0\nC 2 3 - 0\nT 2 2 0 0\n");
}

/// "4★ n = 16, f = 15 accepted; n = 17, f = 0 and f = n give 4." U12: "question 4 with its trials follows".
#[test]
fn trial_4_group_ranges() {
    bench_after(&[lock(32, 31)]);
    let refused = [
        lock(33, 1),
        lock(33, 32),
        lock(1, 1),
        lock(0, 0),
        lock(4, 0),
        lock(4, 4),
    ];
    refuse_all(&mut Bench::default(), 4, &refused);
}

/// "5★ n = 3, f = 1, all willing; votes of 2 and 3 reach 1, nothing else before the bells; 3 gets 2's help answer and
/// puts Stay; 1's acknowledgement then reaches 2, which puts Move."
#[test]
fn trial_5_two_words() {
    let mut bench = bench_after(&[
        lock(3, 1),
        order(1),
        vote(1, true, 10),
        vote(2, true, 20),
        vote(3, true, 30),
        deliver(VOTE, 2, 1),
        deliver(VOTE, 3, 1),
        timeout(1),
        timeout(2),
        timeout(2),
        timeout(3),
    ]);
    assert!(is_waiting(&bench, 2) && is_waiting(&bench, 3));
    accept_all(&mut bench, &[deliver(HELP, 3, 2), deliver(HELPED, 2, 3)]);
    assert_eq!(proposals(&bench), [STAY]);
    accept_all(&mut bench, &[deliver(ACK, 1, 2)]);
    assert_eq!(proposals(&bench), [STAY, MOVE]);
    assert_eq!(outcomes(&bench), [None, None, None]);
    assert!(!is_waiting(&bench, 2) && !is_waiting(&bench, 3));
}

/// "6★ n = 4, f = 1: 4 holds nothing at its second bell; then 1's acknowledgement comes two times: counted a single
/// time, 4 still waits."
#[test]
fn trial_6_one_per_sender() {
    let mut bench = bench_after(&[
        lock(4, 1),
        order(1),
        vote(1, true, 0),
        vote(4, true, 0),
        timeout(1),
        timeout(4),
        deliver(ACK, 1, 4),
        deliver(ACK, 1, 4),
    ]);
    assert!(is_waiting(&bench, 4));
    assert!(proposals(&bench).is_empty());
    // One answer more, and the counts reach n − f.
    accept_all(
        &mut bench,
        &[
            vote(3, true, 0),
            timeout(3),
            deliver(HELP, 4, 3),
            deliver(HELPED, 3, 4),
        ],
    );
    assert_eq!(proposals(&bench), [STAY]);
}

/// "7★ Position 20,000 accepted, 20,001 gives 11."
#[test]
fn trial_7_positions() {
    let mut bench = bench_after(&[lock(2, 1), order(1)]);
    let refused = [20_001, -20_001, i32::MAX, i32::MIN].map(|target| vote(1, true, target));
    refuse_all(&mut bench, 11, &refused);
    accept_all(&mut bench, &[vote(1, true, 20_000), vote(2, true, -20_000)]);
}

/// "8★ Restore without card: 19."
#[test]
fn trial_8_restore_without_card() {
    let mut bench = bench_after(&[lock(2, 1), order(1), stop(1)]);
    refuse_all(&mut bench, 19, &[restore(1)]);
}

/// "9★ Arbiter Move when just Stay was put: 18."
#[test]
fn trial_9_word_not_put() {
    let mut bench = bench_after(&[
        lock(2, 1),
        order(1),
        vote(2, true, 9),
        timeout(2),
        timeout(2),
    ]);
    refuse_all(&mut bench, 18, &[decision(2, MOVE)]);
    accept_all(&mut bench, &[decision(2, STAY)]);
    assert_eq!(bench_state(&bench), "C 1 0 - 0\nC 2 3 S 0\nT 1 1 0 0\n");
}
