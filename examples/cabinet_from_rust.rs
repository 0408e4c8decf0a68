//! Three cabinets in one Rust program, by the safe calls of include/cabinet.rs: a clean order in which all are willing; then one in which no vote arrives and the
//! arbiter gives the word; then one cabinet comes back from its card. The gate builds and runs this:
//!
//!     make target/cabinet_from_rust && target/cabinet_from_rust

#[allow(dead_code)]
#[path = "../include/cabinet.rs"]
mod cabinet;

use cabinet::{Cabinet, Outcome, OTHER_CARD};

const N: u8 = 3;
const F: u8 = 1;

/// All that was sent is delivered.
fn deliver(lock: &mut [Cabinet]) {
    let sent: Vec<_> = lock.iter().flat_map(|c| c.telegrams().collect::<Vec<_>>()).collect();
    for telegram in sent {
        assert_eq!(lock[telegram.receiver() as usize - 1].receive(telegram.bytes()), Ok(()));
    }
}

fn ring(lock: &mut [Cabinet], stage: u8) {
    for c in lock.iter_mut().filter(|c| c.show().stage == stage) {
        assert_eq!(c.timeout(), Ok(()));
    }
}

fn main() {
    let mut lock: Vec<_> = (1..=N).map(|id| Cabinet::begin(N, F, id, false, 0).unwrap()).collect();

    for (i, c) in lock.iter_mut().enumerate() {
        c.order(1).unwrap();
        c.vote(true, 100 * (i as i32 + 1)).unwrap();
    }
    deliver(&mut lock);
    ring(&mut lock, 1);
    deliver(&mut lock);
    ring(&mut lock, 2);
    for (i, c) in lock.iter().enumerate() {
        let shown = c.show();
        assert_eq!((shown.stage, shown.outcome, shown.position), (3, Some(Outcome::Move), 100 * (i as i32 + 1)));
    }

    for c in lock.iter_mut() {
        c.order(2).unwrap();
        c.vote(true, 0).unwrap();
    }
    ring(&mut lock, 1);
    ring(&mut lock, 2);
    deliver(&mut lock);
    assert!(lock.iter().all(|c| c.show().put == Some(Outcome::Stay) && c.show().outcome.is_none()));
    assert_eq!(lock[0].order(3), Err(13));
    for c in lock.iter_mut() {
        c.decide(Outcome::Stay).unwrap();
    }

    let card = lock[1].save().unwrap();
    let mut back = Cabinet::begin(N, F, 2, false, 200).unwrap();
    back.wake(&card).unwrap();
    assert_eq!((back.show().stage, back.show().outcome, back.show().position), (9, Some(Outcome::Stay), 200));
    assert_eq!(back.vote(true, 0), Err(15));
    back.order(3).unwrap();
    assert_eq!(back.show().stage, 0);
    assert_eq!(lock[0].wake(&card), Err(OTHER_CARD));
    println!("three cabinets, three orders, one came back");
}
