//! Vote sets, the "sheets" of document 01: "two sets of controllers: known, and willing (within known)".

use crate::members::Members;

/// A decision on an order. Document 01 calls it a word.
#[derive(Clone, Copy, PartialEq, Eq, Debug)]
pub enum Verdict {
    Stay,
    Move,
}

#[derive(Clone, Copy, PartialEq, Eq, Debug, Default)]
pub struct VoteSet {
    pub known: Members,
    pub willing: Members,
}

impl VoteSet {
    pub const EMPTY: VoteSet = VoteSet {
        known: Members::NONE,
        willing: Members::NONE,
    };

    /// The vote of one controller.
    pub fn single(id: u8, willing: bool) -> VoteSet {
        let known = Members::only(id);
        let willing = if willing { known } else { Members::NONE };
        VoteSet { known, willing }
    }

    /// Whether a controller known to both is willing in just one (document 02, U7).
    pub fn contradicts(self, other: VoteSet) -> bool {
        let both = self.known.intersection(other.known);
        self.willing.intersection(both) != other.willing.intersection(both)
    }

    /// The union of known and the union of willing; none where the two contradict each other: "Joining now says so
    /// instead of taking either."
    pub fn join(self, other: VoteSet) -> Option<VoteSet> {
        (!self.contradicts(other)).then(|| VoteSet {
            known: self.known.union(other.known),
            willing: self.willing.union(other.willing),
        })
    }

    /// "it is *full* when all n are known"
    pub fn is_complete(self, everyone: Members) -> bool {
        self.known.includes(everyone)
    }

    /// "Its *word* is Move if all n are known and willing, else Stay."
    pub fn verdict(self, everyone: Members) -> Verdict {
        if self.known.includes(everyone) && self.willing.includes(everyone) {
            Verdict::Move
        } else {
            Verdict::Stay
        }
    }
}
