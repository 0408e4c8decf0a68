//! Seeded input for the generator program.

use crate::generator::{Wanted, MAX_DRAWN};
use crate::group::{Group, MAX_CONTROLLERS};
use crate::rng::Rng;

/// The ends first: n at both, no drawn event and the most, start at both, and just outside each; then seeded ones of many counts.
pub fn inputs(rng: &mut Rng, count: usize) -> Vec<Vec<u8>> {
    let mut inputs = ends();
    inputs.extend((0..=9).map(|length| vec![2; length]));
    while inputs.len() < count {
        inputs.push(seeded(rng).to_bytes().to_vec());
    }
    inputs
}

fn ends() -> Vec<Vec<u8>> {
    let mut inputs = Vec::new();
    for n in [0, 1, 2, MAX_CONTROLLERS, MAX_CONTROLLERS + 1] {
        for f in [0, 1, n.saturating_sub(1), n] {
            for count in [0, 1, MAX_DRAWN, MAX_DRAWN + 1, u16::MAX] {
                for start in [0, 1, u32::MAX] {
                    let group = Group { n, f };
                    inputs.push(Wanted { group, count, start }.to_bytes().to_vec());
                }
            }
        }
    }
    inputs
}

fn seeded(rng: &mut Rng) -> Wanted {
    let n = rng.between(2, usize::from(MAX_CONTROLLERS)) as u8;
    let f = rng.between(1, usize::from(n) - 1) as u8;
    let most = rng.pick(&[20, 200, usize::from(MAX_DRAWN)]);
    Wanted {
        group: Group { n, f },
        count: rng.between(0, most) as u16,
        start: rng.word().max(1),
    }
}
