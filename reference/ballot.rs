//! Ballots (document 02, U14): to whom they belong, their kinds of message, and what counts as a majority.

use crate::group::Group;
use crate::vote_set::Verdict;

/// "Ballots go from 1 to 255"; none for any other number.
pub fn from_number(number: u32) -> Option<u8> {
    u8::try_from(number).ok().filter(|&ballot| ballot >= 1)
}

/// "ballot b belongs to controller 1 + (b − 1) mod n"; ballot 0 to nobody.
pub fn owner(group: Group, ballot: u8) -> Option<u8> {
    let before = ballot.checked_sub(1)?;
    Some(1 + before % group.n)
}

/// "more than n/2"
pub fn is_majority(group: Group, count: u32) -> bool {
    2 * count > u32::from(group.n)
}

/// A ballot that a controller took, and the word put in it.
#[derive(Clone, Copy, PartialEq, Eq, Debug)]
pub struct Taking {
    pub ballot: u8,
    pub word: Verdict,
}

/// "Telegram kinds 5 ask, 6 promise, 7 put and 8 taken"
#[derive(Clone, Copy, PartialEq, Eq, Debug)]
pub enum BallotKind {
    Ask = 5,
    Promise = 6,
    Put = 7,
    Taken = 8,
}

impl BallotKind {
    pub const ALL: [BallotKind; 4] = [
        BallotKind::Ask,
        BallotKind::Promise,
        BallotKind::Put,
        BallotKind::Taken,
    ];

    pub fn from_number(number: u8) -> Option<BallotKind> {
        Self::ALL.into_iter().find(|kind| kind.number() == number)
    }

    pub fn number(self) -> u8 {
        self as u8
    }

    /// The place of the kind in a table by kind.
    pub fn index(self) -> usize {
        self as usize - 5
    }
}
