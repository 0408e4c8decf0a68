//! Every state that the ballots of one order can reach (document 02, U14), for few controllers and ballots: no two words are
//! chosen. Messages may be lost, late or repeated: one that was sent may come at any later time, or never.

pub mod model;

use crate::vote_set::Verdict;
use model::{Action, Site, State};
use std::collections::HashSet;
use std::hash::{BuildHasherDefault, Hasher};

/// What a search came to.
#[derive(Clone, Debug, Default)]
pub struct Found {
    pub states: u64,
    /// Steps that change something.
    pub steps: u64,
    /// States in which a word is chosen, by word.
    pub chosen: [u64; 2],
    /// States in which two ballots have takers of different words.
    pub contested: u64,
    /// The way to a state in which both words are chosen; the search ends there.
    pub violation: Option<Vec<Action>>,
}

/// Goes from the beginning of an order through every state, depth first.
pub fn search(site: &Site) -> Found {
    let mut found = Found::default();
    let mut seen = Seen::default();
    let mut way: Vec<Step> = Vec::new();
    enter(site, State::default(), None, &mut found, &mut seen, &mut way);
    while let Some(step) = way.last_mut() {
        let Some(action) = step.left.pop() else {
            way.pop();
            continue;
        };
        let next = step.state.after(site, action);
        found.steps += 1;
        enter(site, next, Some(action), &mut found, &mut seen, &mut way);
        if found.violation.is_some() {
            break;
        }
    }
    found
}

/// One step of the way to where the search is.
struct Step {
    by: Option<Action>,
    state: State,
    /// The actions that were not tried yet.
    left: Vec<Action>,
}

fn enter(
    site: &Site,
    state: State,
    by: Option<Action>,
    found: &mut Found,
    seen: &mut Seen,
    way: &mut Vec<Step>,
) {
    if !seen.insert(state.key(site)) {
        return;
    }
    let left = state.actions(site);
    way.push(Step { by, state, left });
    let chosen = [Verdict::Stay, Verdict::Move].map(|word| state.is_chosen(site, word));
    found.states += 1;
    for (count, is_chosen) in found.chosen.iter_mut().zip(chosen) {
        *count += u64::from(is_chosen);
    }
    found.contested += u64::from(state.is_contested(site));
    if chosen == [true, true] {
        found.violation = Some(way.iter().filter_map(|step| step.by).collect());
    }
}

type Seen = HashSet<u128, BuildHasherDefault<Mix>>;

/// A quick hash of one number.
#[derive(Default)]
struct Mix(u64);

impl Hasher for Mix {
    fn finish(&self) -> u64 {
        self.0
    }

    fn write(&mut self, bytes: &[u8]) {
        for byte in bytes {
            self.write_u128((*byte).into());
        }
    }

    fn write_u128(&mut self, number: u128) {
        let folded = (number as u64) ^ ((number >> 64) as u64).rotate_left(29) ^ self.0;
        let mixed = (folded ^ (folded >> 32)).wrapping_mul(0xD6E8_FEB8_6659_FD93);
        self.0 = mixed ^ (mixed >> 32);
    }
}
