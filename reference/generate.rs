//! Seeded input for the programs: record frames, controller commands and bench schedules.

pub mod acts;
pub mod ballot_frames;
pub mod ballots;
pub mod choices;
pub mod clean_orders;
pub mod commands;
pub mod frames;
pub mod hearing;
pub mod orders;
pub mod player;
pub mod ranges;
pub mod reports;
pub mod schedules;
pub mod sheets;
pub mod steps_back;
pub mod texts;
pub mod traces;
pub mod wanted;

use std::io;

/// The two numbers that every generating program takes: how many, and the seed.
pub fn numbers_from_arguments() -> io::Result<[u64; 2]> {
    let arguments: Vec<String> = std::env::args().skip(1).collect();
    let numbers: Option<Vec<u64>> = arguments.iter().map(|text| text.parse().ok()).collect();
    let pair = numbers.and_then(|numbers| numbers.try_into().ok());
    pair.ok_or_else(|| io::Error::other("two numbers are wanted: how many, and the seed"))
}
