//! Writes bench schedules, each after its length in four bytes: gen_schedules COUNT SEED.

use reference::generate::{numbers_from_arguments, schedules};
use reference::rng::Rng;
use std::io::{self, BufWriter, Write};

fn main() -> io::Result<()> {
    let [count, seed] = numbers_from_arguments()?;
    let mut rng = Rng::new(seed);
    let mut output = BufWriter::new(io::stdout().lock());
    for place in 0..count as usize {
        let schedule = schedules::schedule(&mut rng, place);
        output.write_all(&(schedule.len() as u32).to_be_bytes())?;
        output.write_all(&schedule)?;
    }
    output.flush()
}
