//! Document 02, U4: a help call that comes early.

use crate::support::*;
use reference::bench::Bench;
use reference::members::Members;
use reference::text::bench_state;

/// n = 3, f = 1: 3 waits and has called 2, which has not voted.
fn calling() -> Bench {
    bench_after(&[
        lock(3, 1),
        order(1),
        vote(1, true, 10),
        vote(3, true, 30),
        timeout(3),
    ])
}

fn kept(bench: &Bench, id: u8) -> Members {
    bench.lock().expect("a lock").controller(id).kept_calls()
}

/// The telegrams of this order from one controller, in the sequence of their sending: kind, receiver, known.
fn sent_from(bench: &Bench, id: u8) -> Vec<(&'static str, u8, u32)> {
    let lock = bench.lock().expect("a lock");
    let from_it = lock.sent().iter().filter(|message| message.from == id);
    from_it
        .map(|m| {
            (
                ["vote", "ack", "call", "answer"][m.kind.index()],
                m.to,
                m.votes.known.0,
            )
        })
        .collect()
}

#[test]
fn kept_at_each_stage_and_answered_whatever_comes_of_the_bell() {
    // kept at stage 0; the bell waits
    let mut waits = calling();
    accept_all(&mut waits, &[deliver(HELP, 3, 2)]);
    assert_eq!(kept(&waits, 2), Members::only(3));
    refuse_all(&mut waits, 17, &[deliver(HELPED, 2, 3)]);
    accept_all(&mut waits, &[vote(2, true, 20), timeout(2), timeout(2)]);
    assert!(is_waiting(&waits, 2));
    assert_eq!(
        sent_from(&waits, 2),
        [
            ("vote", 1, 2),
            ("ack", 1, 2),
            ("call", 3, 0),
            ("answer", 3, 2)
        ]
    );
    // kept at stage 1; the bell puts a word
    let mut puts = calling();
    accept_all(
        &mut puts,
        &[
            vote(2, true, 20),
            deliver(HELP, 3, 2),
            timeout(1),
            deliver(ACK, 1, 2),
            timeout(2),
            timeout(2),
        ],
    );
    assert_eq!(proposals(&puts), [STAY]);
    assert_eq!(
        sent_from(&puts, 2),
        [("vote", 1, 2), ("ack", 1, 2), ("answer", 3, 3)]
    );
    // kept at stage 2; the bell decides
    let mut decides = calling();
    accept_all(
        &mut decides,
        &[
            vote(2, true, 20),
            deliver(VOTE, 2, 1),
            deliver(VOTE, 3, 1),
            timeout(1),
            timeout(2),
            deliver(HELP, 3, 2),
            deliver(ACK, 1, 2),
            timeout(2),
        ],
    );
    assert_eq!(outcomes(&decides), [None, Some(MOVE), None]);
    assert_eq!(
        sent_from(&decides, 2),
        [("vote", 1, 2), ("ack", 1, 2), ("answer", 3, 7)]
    );
}

#[test]
fn two_callers_are_answered_in_rising_order_after_the_own_calls() {
    let bench = bench_after(&[
        lock(4, 1),
        order(1),
        vote(3, true, 0),
        vote(4, true, 0),
        timeout(3),
        timeout(4),
        deliver(HELP, 4, 2),
        deliver(HELP, 3, 2),
        vote(2, true, 0),
        timeout(2),
        timeout(2),
    ]);
    let help = [
        ("call", 3, 0),
        ("call", 4, 0),
        ("answer", 3, 2),
        ("answer", 4, 2),
    ];
    assert_eq!(sent_from(&bench, 2)[2..], help);
}

#[test]
fn a_stop_loses_it_and_one_standing_by_keeps_none() {
    let mut bench = calling();
    accept_all(&mut bench, &[deliver(HELP, 3, 2), save(2), stop(2)]);
    assert_eq!(kept(&bench, 2), Members::NONE);
    accept_all(&mut bench, &[restore(2)]);
    refuse_all(&mut bench, 15, &[deliver(HELP, 3, 2), timeout(2)]);
    assert_eq!(
        bench_state(&bench),
        "C 1 1 - 0\nC 2 9 - 0\nC 3 3 - 0\nT 2 0 1 0\n"
    );
}

#[test]
fn a_new_order_drops_it() {
    let mut bench = calling();
    accept_all(
        &mut bench,
        &[
            deliver(HELP, 3, 2),
            vote(2, true, 20),
            timeout(2),
            timeout(2),
            deliver(HELPED, 2, 3),
            timeout(1),
            timeout(1),
            decision(1, STAY),
            decision(2, STAY),
            decision(3, STAY),
            order(2),
            vote(2, true, 20),
            timeout(2),
            timeout(2),
        ],
    );
    assert_eq!(
        sent_from(&bench, 2),
        [("vote", 1, 2), ("ack", 1, 2), ("call", 3, 0)]
    );
}
