//! Document 02, U1: the answer from the ends against all pairs of levels, and the refusals.

use reference::generate::ranges::pair;
use reference::levels::Willingness::{CertainlyUnwilling, Unsure, Willing};
use reference::levels::{line, read, vote, willingness, Range, Willingness};
use reference::rng::Rng;

fn range(low: i32, high: i32) -> Range {
    Range { low, high }
}

/// The request's own words: every pair, no pair, otherwise.
fn by_all_pairs(above: Range, below: Range) -> Willingness {
    let heads =
        || (above.low..=above.high).flat_map(|a| (below.low..=below.high).map(move |b| a - b));
    let within = |head: i32| (-150..=150).contains(&head);
    if heads().all(within) {
        Willing
    } else if !heads().any(within) {
        CertainlyUnwilling
    } else {
        Unsure
    }
}

#[test]
fn the_ends_decide() {
    for low in -160..=160 {
        for (above_width, below_width) in [(0, 0), (0, 3), (3, 0), (2, 5), (40, 1)] {
            let above = range(low, low + above_width);
            let below = range(-1, below_width - 1);
            assert_eq!(
                willingness(above, below),
                Ok(by_all_pairs(above, below)),
                "{above:?} {below:?}"
            );
        }
    }
    for (above, below) in [
        (range(-200, 200), range(0, 0)),
        (range(0, 0), range(-151, 151)),
        (range(0, 310), range(155, 155)),
    ] {
        assert_eq!(willingness(above, below), Ok(by_all_pairs(above, below)));
    }
}

#[test]
fn a_level_out_of_range_comes_before_a_low_above_its_high() {
    let fine = range(0, 0);
    for outside in [-100_001, 100_001, i32::MIN, i32::MAX] {
        assert_eq!(willingness(range(outside, 0), fine), Err(20));
        assert_eq!(willingness(range(0, outside), fine), Err(20));
        assert_eq!(willingness(range(1, 0), range(outside, 0)), Err(20));
        assert_eq!(willingness(range(1, 0), range(0, outside)), Err(20));
    }
    assert_eq!(willingness(range(1, 0), fine), Err(21));
    assert_eq!(willingness(fine, range(100_000, 99_999)), Err(21));
    assert_eq!(willingness(range(-100_000, 100_000), fine), Ok(Unsure));
}

#[test]
fn only_willing_votes_willing() {
    assert!(vote(Ok(Willing)));
    for answer in [Ok(CertainlyUnwilling), Ok(Unsure), Err(20), Err(21)] {
        assert!(!vote(answer));
    }
}

#[test]
fn another_length_gets_1() {
    for length in [0, 15, 17, 32] {
        assert_eq!(line(&vec![0; length]), "- 1");
    }
    assert_eq!(line(&[0; 16]), "willing");
}

/// The seeded pairs meet each edge: heads at and beside the limits, points, the ends of the levels, two faults at once.
#[test]
fn seeded_pairs_meet_every_edge() {
    let mut rng = Rng::new(5);
    let mut met = [0; 16];
    for _ in 0..20_000 {
        let (above, below) = read(&pair(&mut rng)).expect("a pair has its length");
        let levels = [above.low, above.high, below.low, below.high];
        let crossed = above.low > above.high || below.low > below.high;
        let answer = willingness(above, below);
        let ends = match answer {
            Ok(_) => [above.low - below.high, above.high - below.low],
            Err(_) => [0, 0],
        };
        let edges = [
            ends.contains(&150),
            ends.contains(&-150),
            ends.contains(&151),
            ends.contains(&-151),
            answer.is_ok() && above.low == above.high,
            answer.is_ok() && below.low == below.high,
            answer.is_ok() && levels.contains(&100_000),
            answer.is_ok() && levels.contains(&-100_000),
            levels.contains(&100_001),
            levels.contains(&-100_001),
            answer == Err(20) && crossed,
            answer == Err(21),
            answer == Err(20) && !crossed,
            answer == Ok(Willing),
            answer == Ok(CertainlyUnwilling),
            answer == Ok(Unsure),
        ];
        for (count, edge) in met.iter_mut().zip(edges) {
            *count += usize::from(edge);
        }
    }
    assert!(met.iter().all(|&count| count > 0), "{met:?}");
}
