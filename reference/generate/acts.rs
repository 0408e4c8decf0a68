//! Acts for the line that eight locks share.

use crate::line::LOCKS;
use crate::rng::Rng;

/// How many acts a sequence has.
pub const LENGTH: usize = 40;

/// A sequence of acts, of one of several kinds: mixed, mostly turns, full calls before turns, one lock that calls against all others.
pub fn sequence(rng: &mut Rng) -> [u8; LENGTH] {
    let turns = rng.pick(&[1, 3, 5, 8]);
    let kind = rng.below(4);
    let rival = lock(rng);
    let mut acts = [0; LENGTH];
    for (index, act) in acts.iter_mut().enumerate() {
        *act = match kind {
            0 => mixed(rng, turns),
            1 if index % 17 < 8 => (index % 17) as u8 + 1,
            1 => 0,
            2 if rng.chance(1, 6) => rival,
            _ => mixed(rng, turns),
        };
    }
    acts
}

fn lock(rng: &mut Rng) -> u8 {
    rng.between(1, LOCKS as usize) as u8
}

/// A turn so many times of ten, else mostly a call by a lock.
fn mixed(rng: &mut Rng, turns: usize) -> u8 {
    if rng.chance(turns, 10) {
        0
    } else if rng.chance(1, 12) {
        rng.pick(&[9, 10, 16, 25, 128, 255])
    } else {
        lock(rng)
    }
}
