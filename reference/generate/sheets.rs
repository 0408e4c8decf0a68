//! Sheets of lockages.

use crate::dues::{Lockage, MAX_LOCKAGES};
use crate::rng::Rng;

const EDGES: [u16; 14] = [
    1, 500, 501, 800, 801, 1_200, 1_201, 1_600, 1_601, 2_000, 2_001, 2_499, 2_500, 250,
];
const OUT_OF_RANGE: [u16; 4] = [0, 2_501, 2_502, u16::MAX];

pub fn sheet(rng: &mut Rng, place: usize) -> Vec<u8> {
    let count = match place % 250 {
        0 => 0,
        1 => MAX_LOCKAGES,
        2 => MAX_LOCKAGES + 1,
        // Sheets that a program may not hold at once: a little below, at and above one to three times 65,536 bytes.
        3 | 5 | 6 | 7 => 16_384 * rng.between(1, 3) - 1 + rng.between(0, 2),
        4 => rng.between(900, 1_100),
        _ => rng.between(0, 12),
    };
    let mut lockages: Vec<Lockage> = (0..count).map(|_| good(rng)).collect();
    // Faults: none on most sheets, else one or two, so that the sequence of the questions shows.
    if rng.chance(2, 5) {
        spoil(rng, &mut lockages);
        if rng.chance(1, 2) {
            spoil(rng, &mut lockages);
        }
    }
    let mut bytes: Vec<u8> = lockages
        .iter()
        .flat_map(|lockage| lockage.bytes())
        .collect();
    if rng.chance(1, 15) {
        bytes.extend((0..rng.between(1, 3)).map(|_| rng.byte()));
    }
    bytes
}

fn good(rng: &mut Rng) -> Lockage {
    Lockage {
        length: if rng.chance(1, 2) {
            rng.pick(&EDGES)
        } else {
            rng.between(1, 2_500) as u16
        },
        outcome: rng.pick(&[0, 1, 2, 2, 2]),
        returned: rng.below(2) as u8,
    }
}

fn spoil(rng: &mut Rng, lockages: &mut [Lockage]) {
    if lockages.is_empty() {
        return;
    }
    let at = rng.below(lockages.len());
    let lockage = &mut lockages[at];
    match rng.below(4) {
        0 => lockage.outcome = rng.between(3, 255) as u8,
        1 => lockage.returned = rng.between(2, 255) as u8,
        _ => lockage.length = rng.pick(&OUT_OF_RANGE),
    }
}
