//! Saved states of a controller, the "cards" of document 01.

use super::{read_u32, write_u32};
use crate::group::Group;
use crate::questions::{
    answer, ask, controller_in_range, group_in_range, order_in_range, position_in_range,
};
use crate::vote_set::Verdict;

#[derive(Clone, Copy, PartialEq, Eq, Debug)]
pub struct Checkpoint {
    pub id: u8,
    pub group: Group,
    pub outcome: Option<Verdict>,
    pub order: u32,
    pub position: i32,
}

impl Checkpoint {
    pub const MARK: [u8; 2] = [0x4C, 0x53];
    pub const LENGTH: usize = 14;

    /// "Card, 14 bytes: 4C 53; controller; n; f; outcome ..; order (4); position (4, two's complement)."
    pub fn read(bytes: &[u8]) -> Result<Checkpoint, u8> {
        ask(1, bytes.len() == Self::LENGTH)?;
        ask(2, bytes[..2] == Self::MARK)?;
        let outcome = outcome_from_number(bytes[5]).ok_or(3)?;
        let checkpoint = Checkpoint {
            id: bytes[2],
            group: Group {
                n: bytes[3],
                f: bytes[4],
            },
            outcome,
            order: read_u32(bytes, 6),
            position: read_u32(bytes, 10) as i32,
        };
        checkpoint.ask_contents()?;
        Ok(checkpoint)
    }

    /// Answers 0, or the question refused; then the buffer is untouched.
    pub fn write(&self, buffer: &mut [u8]) -> u8 {
        answer(self.try_write(buffer))
    }

    fn try_write(&self, buffer: &mut [u8]) -> Result<(), u8> {
        ask(1, buffer.len() == Self::LENGTH)?;
        self.ask_contents()?;
        buffer[..2].copy_from_slice(&Self::MARK);
        buffer[2] = self.id;
        buffer[3] = self.group.n;
        buffer[4] = self.group.f;
        buffer[5] = outcome_number(self.outcome);
        write_u32(buffer, 6, self.order);
        write_u32(buffer, 10, self.position as u32);
        Ok(())
    }

    fn ask_contents(&self) -> Result<(), u8> {
        group_in_range(self.group)?;
        controller_in_range(self.group, self.id)?;
        order_in_range(self.order)?;
        position_in_range(self.position)
    }
}

/// "outcome (0 none, 1 Stay, 2 Move)"
pub fn outcome_number(outcome: Option<Verdict>) -> u8 {
    match outcome {
        None => 0,
        Some(Verdict::Stay) => 1,
        Some(Verdict::Move) => 2,
    }
}

/// The outcome with that number, if the number is listed.
pub fn outcome_from_number(number: u8) -> Option<Option<Verdict>> {
    match number {
        0 => Some(None),
        1 => Some(Some(Verdict::Stay)),
        2 => Some(Some(Verdict::Move)),
        _ => None,
    }
}
