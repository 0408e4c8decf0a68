//! Document 01, "Questions put to a record or event", where they are shared.

use crate::group::Group;
use std::ops::RangeInclusive;

/// "Positions are −20,000 to 20,000 mm"
pub const POSITIONS: RangeInclusive<i32> = -20_000..=20_000;

/// 'The first "no" gives its number.'
pub fn ask(number: u8, holds: bool) -> Result<(), u8> {
    if holds {
        Ok(())
    } else {
        Err(number)
    }
}

/// The answer as a number: "0 accepted", else the question's.
pub fn answer(asked: Result<(), u8>) -> u8 {
    asked.err().unwrap_or(0)
}

/// 4. "Are n and f in range?"
pub fn group_in_range(group: Group) -> Result<(), u8> {
    ask(4, group.in_range())
}

/// 7. "Are controller numbers in 1 to n"
pub fn controller_in_range(group: Group, id: u8) -> Result<(), u8> {
    ask(7, group.has(id))
}

/// 7. "Are controller numbers in 1 to n, sender and receiver different?"
pub fn route_in_range(group: Group, from: u8, to: u8) -> Result<(), u8> {
    ask(7, group.has(from) && group.has(to) && from != to)
}

/// 8. "Is the order number at least 1?"
pub fn order_in_range(number: u32) -> Result<(), u8> {
    ask(8, number >= 1)
}

/// 11. "Is the position in range?"
pub fn position_in_range(position: i32) -> Result<(), u8> {
    ask(11, POSITIONS.contains(&position))
}
