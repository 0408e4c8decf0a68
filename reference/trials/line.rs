//! Document 02, U8: the line that eight locks share.

use reference::generate::acts;
use reference::line::{line_report, Line, MAX_ACTS};
use reference::rng::Rng;

fn served(line: &mut Line, turns: usize) -> Vec<Option<u8>> {
    (0..turns).map(|_| line.turn()).collect()
}

fn with_calls(locks: &[u8]) -> Line {
    let mut line = Line::default();
    for &lock in locks {
        assert_eq!(line.call(lock), Ok(()));
    }
    line
}

/// "the first turn starts from 1", also after turns without callers.
#[test]
fn starts_from_1() {
    let mut line = Line::default();
    assert_eq!(served(&mut line, 3), [None; 3]);
    assert_eq!(line.call(8), Ok(()));
    assert_eq!(line.call(2), Ok(()));
    assert_eq!(served(&mut line, 3), [Some(2), Some(8), None]);
}

/// "with 1 following 8"; "leaves the last served as it was".
#[test]
fn one_follows_eight() {
    let mut line = with_calls(&[5, 8]);
    assert_eq!(served(&mut line, 3), [Some(5), Some(8), None]);
    assert_eq!(line.call(8), Ok(()));
    assert_eq!(line.call(1), Ok(()));
    assert_eq!(served(&mut line, 2), [Some(1), Some(8)]);
}

/// "A call by a lock already calling changes nothing." "Refused: 25".
#[test]
fn calls() {
    let mut line = with_calls(&[3]);
    let before = line.clone();
    assert_eq!(line.call(3), Ok(()));
    assert_eq!(line.call(0), Err(25));
    assert_eq!(line.call(9), Err(25));
    assert_eq!(line, before);
}

/// "beyond the eighth turn after its call": never, and the eighth is met.
#[test]
fn eighth_turn() {
    let mut rng = Rng::new(8);
    let mut longest = 0;
    for _ in 0..20_000 {
        let mut line = Line::default();
        let mut waits = [0; 9];
        for act in acts::sequence(&mut rng) {
            if act != 0 {
                let was_calling = line.is_calling(act);
                if line.call(act).is_ok() && !was_calling {
                    waits[act as usize] = 0;
                }
                continue;
            }
            let served = line.turn();
            for lock in 1..=8u8 {
                if served == Some(lock) || line.is_calling(lock) {
                    waits[lock as usize] += 1;
                    longest = longest.max(waits[lock as usize]);
                }
            }
        }
    }
    assert_eq!(longest, 8);
}

#[test]
fn report() {
    assert_eq!(
        line_report(&[0, 8, 9, 3, 0, 0, 0]),
        "0 -\n1 0\n2 25\n3 0\n4 3\n5 8\n6 -\n"
    );
    assert_eq!(line_report(&[]), "");
    assert_eq!(line_report(&[0; MAX_ACTS]).lines().count(), MAX_ACTS);
    assert_eq!(line_report(&[0; MAX_ACTS + 1]), "- 1\n");
}
