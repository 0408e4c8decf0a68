//! Pairs of ranges for the levels program: heads at and beside the limits, one point, the ends of what a level may be, low above high, and
//! two faults at once.

use crate::levels::{Range, LENGTH};
use crate::records::write_u32;
use crate::rng::Rng;

pub fn pair(rng: &mut Rng) -> [u8; LENGTH] {
    let mut above = range(rng);
    let mut below = match rng.below(4) {
        0 => range(rng),
        _ => facing(rng, above),
    };
    if rng.chance(1, 8) {
        spoil(rng, &mut above);
    }
    if rng.chance(1, 8) {
        spoil(rng, &mut below);
    }
    bytes(above, below)
}

fn bytes(above: Range, below: Range) -> [u8; LENGTH] {
    let mut bytes = [0; LENGTH];
    for (at, level) in [above.low, above.high, below.low, below.high]
        .into_iter()
        .enumerate()
    {
        write_u32(&mut bytes, 4 * at, level as u32);
    }
    bytes
}

fn level(rng: &mut Rng) -> i32 {
    match rng.below(8) {
        0 => rng.pick(&[-100_000, 100_000, 0, 1, -1]),
        1 => rng.between(0, 200_000) as i32 - 100_000,
        _ => rng.between(0, 1000) as i32 - 500,
    }
}

fn range(rng: &mut Rng) -> Range {
    let (a, b) = (level(rng), level(rng));
    let width = match rng.below(4) {
        0 => 0,
        1 => rng.between(0, 300) as i32,
        2 => rng.pick(&[1, 150, 151, 299, 300, 301]),
        _ => (a - b).abs(),
    };
    let low = a.min(100_000 - width);
    Range {
        low,
        high: low + width,
    }
}

/// A range of which one end has a head at or beside a limit with one end of the range above.
fn facing(rng: &mut Rng, above: Range) -> Range {
    let head = rng.pick(&[-152, -151, -150, -149, -1, 0, 1, 149, 150, 151, 152]);
    let end = rng.pick(&[above.low, above.high]) - head;
    let width = rng.pick(&[0, 0, 1, 2, 10, 149, 150, 151, 299, 300, 301]);
    match rng.below(2) {
        0 => Range {
            low: end,
            high: end + width,
        },
        _ => Range {
            low: end - width,
            high: end,
        },
    }
}

fn spoil(rng: &mut Rng, range: &mut Range) {
    match rng.below(4) {
        0 => std::mem::swap(&mut range.low, &mut range.high),
        1 => range.low = range.high + 1,
        2 => range.low = rng.pick(&[-100_001, 100_001, i32::MIN, i32::MAX]),
        _ => range.high = rng.pick(&[-100_001, 100_001, i32::MIN, i32::MAX]),
    }
}
