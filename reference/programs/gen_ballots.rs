//! Writes bench schedules with ballots, each after its length in four bytes: gen_ballots COUNT SEED.

use reference::generate::{ballots, numbers_from_arguments};
use reference::rng::Rng;
use std::io::{self, BufWriter, Write};

fn main() -> io::Result<()> {
    let [count, seed] = numbers_from_arguments()?;
    let mut rng = Rng::new(seed);
    let mut output = BufWriter::new(io::stdout().lock());
    for _ in 0..count {
        let schedule = ballots::schedule(&mut rng);
        output.write_all(&(schedule.len() as u32).to_be_bytes())?;
        output.write_all(&schedule)?;
    }
    output.flush()
}
