//! Sets of controllers: "Bit k − 1, counted from the lowest, is controller k."

use std::ops::RangeInclusive;

#[derive(Clone, Copy, PartialEq, Eq, Debug, Default)]
pub struct Members(pub u32);

impl Members {
    pub const NONE: Members = Members(0);

    pub fn only(id: u8) -> Members {
        Members(1 << (id - 1))
    }

    pub fn range(ids: RangeInclusive<u8>) -> Members {
        ids.fold(Members::NONE, |set, id| set.union(Members::only(id)))
    }

    pub fn union(self, other: Members) -> Members {
        Members(self.0 | other.0)
    }

    pub fn intersection(self, other: Members) -> Members {
        Members(self.0 & other.0)
    }

    /// The members of this set that the other has not.
    pub fn difference(self, other: Members) -> Members {
        Members(self.0 & !other.0)
    }

    pub fn without(self, id: u8) -> Members {
        self.difference(Members::only(id))
    }

    pub fn contains(self, id: u8) -> bool {
        self.includes(Members::only(id))
    }

    pub fn includes(self, other: Members) -> bool {
        self.0 & other.0 == other.0
    }

    pub fn is_empty(self) -> bool {
        self == Members::NONE
    }

    pub fn count(self) -> u32 {
        self.0.count_ones()
    }

    /// The members in rising order.
    pub fn iter(self) -> impl Iterator<Item = u8> {
        (1..=32).filter(move |&id| self.contains(id))
    }
}
