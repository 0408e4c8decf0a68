//! Document 02, U9: the count of gates still open.

use crate::support::*;
use reference::bench::Bench;

#[test]
fn none_before_the_lock() {
    assert_eq!(Bench::default().open_gates(), 0);
}

/// Those standing by never count; a new order counts them again.
#[test]
fn event_by_event() {
    let events = [
        (lock(3, 1), 0, 3),
        (order(1), 0, 3),
        (save(2), 0, 3),
        (stop(2), 0, 2),
        (order(2), 13, 2),
        (restore(2), 0, 2),
        (vote(1, true, 10), 0, 2),
        (timeout(1), 0, 2),
        (timeout(1), 0, 2),
        (decision(1, STAY), 0, 1),
        (decision(1, STAY), 0, 1),
        (decision(2, STAY), 0, 1),
        (stop(3), 0, 0),
        (order(2), 0, 2),
    ];
    let mut bench = Bench::default();
    for (event, answer, open) in events {
        assert_eq!(bench.step(&event), answer, "{event:?}");
        assert_eq!(bench.open_gates(), open, "{event:?}");
    }
}

/// In the listing the two second bells close a gate each.
#[test]
fn the_listing() {
    let mut bench = Bench::default();
    let mut open = Vec::new();
    for event in listing(true) {
        bench.step(&event);
        open.push(bench.open_gates());
    }
    assert_eq!(open, [2, 2, 2, 2, 2, 2, 2, 2, 2, 2, 1, 0]);
}
