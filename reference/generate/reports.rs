//! Seeded input for the report program.

use crate::generator::MAX_DRAWN;
use crate::group::{Group, MAX_CONTROLLERS};
use crate::rng::Rng;
use crate::survey::{Record, MAX_SCHEDULES};

/// So many events are drawn for a seeded record, all its schedules together; for the large ones at the ends, more.
const DRAWN: usize = 20_000;

/// The ends first: each refusal, alone and with those that come after it; the least and the most of each number. Then seeded ones.
pub fn inputs(rng: &mut Rng, count: usize) -> Vec<Vec<u8>> {
    let mut inputs: Vec<Vec<u8>> = (0..=12).filter(|&n| n != 10).map(|n| vec![2; n]).collect();
    inputs.extend(refused().into_iter().map(Record::to_bytes));
    inputs.extend(ends().into_iter().map(Record::to_bytes));
    while inputs.len() < count {
        inputs.push(seeded(rng).to_bytes());
    }
    inputs
}

fn record(n: u8, f: u8, count: u16, first: u32, schedules: u16) -> Record {
    let group = Group { n, f };
    Record {
        group,
        count,
        first,
        schedules,
    }
}

fn refused() -> Vec<Record> {
    let mut records = Vec::new();
    let sizes = [(0, 0), (1, 1), (2, 0), (2, 2), (MAX_CONTROLLERS, MAX_CONTROLLERS), (MAX_CONTROLLERS + 1, 1), (255, 255)];
    for (n, f) in sizes {
        records.push(record(n, f, 10, 1, 2));
        records.push(record(n, f, MAX_DRAWN + 1, 0, 0));
    }
    let numbers = [
        (1, 0),
        (1, MAX_SCHEDULES + 1),
        (1, u16::MAX),
        (0, 1),
        (0, 0),
        (u32::MAX, 2),
        (u32::MAX, MAX_SCHEDULES),
        (u32::MAX - 998, MAX_SCHEDULES),
    ];
    for (first, schedules) in numbers {
        records.push(record(3, 1, 10, first, schedules));
        records.push(record(3, 1, MAX_DRAWN + 1, first, schedules));
    }
    for count in [MAX_DRAWN + 1, u16::MAX] {
        records.push(record(3, 1, count, 1, 1));
        records.push(record(2, 1, count, u32::MAX, 1));
    }
    records
}

fn ends() -> Vec<Record> {
    let mut records = vec![
        record(5, 2, 1_000, 1, 100),
        record(2, 1, 0, u32::MAX, 1),
        record(2, 1, 40, u32::MAX - 999, MAX_SCHEDULES),
        record(MAX_CONTROLLERS, MAX_CONTROLLERS - 1, 40, 1, MAX_SCHEDULES),
        record(3, 2, 300, 1, MAX_SCHEDULES),
    ];
    for n in [2, 3, 16, 17, MAX_CONTROLLERS] {
        for f in [1, n - 1] {
            records.push(record(n, f, 0, 1, 1));
            records.push(record(n, f, MAX_DRAWN, 1, 4));
        }
    }
    records
}

/// Few drawn events where there are many schedules.
fn seeded(rng: &mut Rng) -> Record {
    let highest = rng.pick(&[2, 4, 8, 16, usize::from(MAX_CONTROLLERS)]);
    let n = rng.between(2, highest);
    let f = rng.between(1, n - 1) as u8;
    let most = rng.pick(&[1, 10, 100, usize::from(MAX_SCHEDULES)]);
    let schedules = rng.between(1, most);
    let count = rng.between(0, usize::from(MAX_DRAWN).min(DRAWN / schedules));
    let first = match rng.below(3) {
        0 => 1,
        1 => rng.between(1, 1_000_000) as u32,
        _ => rng.word().clamp(1, u32::MAX - 999),
    };
    record(n as u8, f, count as u16, first, schedules as u16)
}
