//! The four forms of a telegram. Document 02, U12: "Up to 16 the telegram remains as it is. From 17 up it is 20 bytes with
//! mark 4C 4C, known and willing of 4 bytes each." U14: kinds 5 to 8 have "four bytes more".

use super::{read_u16, read_u32, write_u32};
use crate::members::Members;
use crate::questions::ask;
use crate::vote_set::VoteSet;

#[derive(Clone, Copy, PartialEq, Eq, Debug)]
pub enum Form {
    Short,
    Long,
    ShortBallot,
    LongBallot,
}

impl Form {
    pub const ALL: [Form; 4] = [Form::Short, Form::Long, Form::ShortBallot, Form::LongBallot];

    /// The form in which a telegram of a lock of n is written, with or without a ballot.
    pub fn of(n: u8, has_ballot: bool) -> Form {
        match (n <= 16, has_ballot) {
            (true, false) => Form::Short,
            (false, false) => Form::Long,
            (true, true) => Form::ShortBallot,
            (false, true) => Form::LongBallot,
        }
    }

    /// Questions 1 and 2: "20 bytes now admit either mark, 24 just 4C 4C"; 16 just 4C 4B.
    pub fn of_bytes(bytes: &[u8]) -> Result<Form, u8> {
        let of_length = || Self::ALL.into_iter().filter(|form| form.length() == bytes.len());
        ask(1, of_length().next().is_some())?;
        of_length().find(|form| form.mark() == bytes[..2]).ok_or(2)
    }

    pub fn is_long(self) -> bool {
        matches!(self, Form::Long | Form::LongBallot)
    }

    pub fn has_ballot(self) -> bool {
        matches!(self, Form::ShortBallot | Form::LongBallot)
    }

    /// The form for the n that this one is not for.
    pub fn of_other_width(self) -> Form {
        match self {
            Form::Short => Form::Long,
            Form::Long => Form::Short,
            Form::ShortBallot => Form::LongBallot,
            Form::LongBallot => Form::ShortBallot,
        }
    }

    pub fn mark(self) -> [u8; 2] {
        match self.is_long() {
            false => [0x4C, 0x4B],
            true => [0x4C, 0x4C],
        }
    }

    pub fn length(self) -> usize {
        match self {
            Form::Short => 16,
            Form::Long | Form::ShortBallot => 20,
            Form::LongBallot => 24,
        }
    }

    /// Where the four bytes of a ballot stand: after known and willing.
    pub fn ballot_at(self) -> usize {
        self.length() - 4
    }

    pub fn votes(self, bytes: &[u8]) -> VoteSet {
        let [known, willing] = match self.is_long() {
            false => [12, 14].map(|at| read_u16(bytes, at).into()),
            true => [12, 16].map(|at| read_u32(bytes, at)),
        };
        VoteSet {
            known: Members(known),
            willing: Members(willing),
        }
    }

    /// Writes votes that fit: question 9 has shown that.
    pub fn write_votes(self, buffer: &mut [u8], votes: VoteSet) {
        let (known, willing) = (votes.known.0, votes.willing.0);
        if self.is_long() {
            write_u32(buffer, 12, known);
            write_u32(buffer, 16, willing);
        } else {
            write_u32(buffer, 12, known << 16 | willing);
        }
    }
}
