//! A gate's willingness from the water levels that two gauges show: document 02, U1. Levels are in mm.

use crate::records::read_u32;

/// What a gauge gives.
#[derive(Clone, Copy, PartialEq, Eq, Debug)]
pub struct Range {
    pub low: i32,
    pub high: i32,
}

#[derive(Clone, Copy, PartialEq, Eq, Debug)]
pub enum Willingness {
    Willing,
    CertainlyUnwilling,
    Unsure,
}

pub const LENGTH: usize = 16;
const HIGHEST_LEVEL: u32 = 100_000;
const GREATEST_HEAD: u64 = 150;

/// The answer, or the number of the refusal.
pub fn willingness(above: Range, below: Range) -> Result<Willingness, u8> {
    let ranges = [above, below];
    let levels = ranges.iter().flat_map(|range| [range.low, range.high]);
    if levels
        .into_iter()
        .any(|level| level.unsigned_abs() > HIGHEST_LEVEL)
    {
        return Err(20);
    }
    if ranges.iter().any(|range| range.low > range.high) {
        return Err(21);
    }
    // The heads of all pairs are the whole numbers from the first of these to the second.
    let first = i64::from(above.low) - i64::from(below.high);
    let last = i64::from(above.high) - i64::from(below.low);
    let nearest_to_zero = if first > 0 {
        first
    } else if last < 0 {
        last
    } else {
        0
    };
    let farthest = first.unsigned_abs().max(last.unsigned_abs());
    Ok(if farthest <= GREATEST_HEAD {
        Willingness::Willing
    } else if nearest_to_zero.unsigned_abs() > GREATEST_HEAD {
        Willingness::CertainlyUnwilling
    } else {
        Willingness::Unsure
    })
}

/// Only "willing" votes willing.
pub fn vote(answer: Result<Willingness, u8>) -> bool {
    answer == Ok(Willingness::Willing)
}

/// The ranges on an input of the program: above low, above high, below low, below high.
pub fn read(input: &[u8]) -> Result<(Range, Range), u8> {
    if input.len() != LENGTH {
        return Err(1);
    }
    let range = |at| Range {
        low: read_u32(input, at) as i32,
        high: read_u32(input, at + 4) as i32,
    };
    Ok((range(0), range(8)))
}

/// What the keeper's program prints for an input.
pub fn line(input: &[u8]) -> String {
    let answer = read(input).and_then(|(above, below)| willingness(above, below));
    match answer {
        Ok(Willingness::Willing) => "willing".to_string(),
        Ok(Willingness::CertainlyUnwilling) => "certainly unwilling".to_string(),
        Ok(Willingness::Unsure) => "unsure".to_string(),
        Err(number) => format!("- {number}"),
    }
}
