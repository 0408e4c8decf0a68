//! Writes bench schedules with steps back, each after its length in four bytes: gen_steps_back COUNT SEED.

use reference::generate::{numbers_from_arguments, steps_back};
use reference::rng::Rng;
use std::io::{self, BufWriter, Write};

fn main() -> io::Result<()> {
    let [count, seed] = numbers_from_arguments()?;
    let mut rng = Rng::new(seed);
    let mut output = BufWriter::new(io::stdout().lock());
    for _ in 0..count {
        let schedule = steps_back::schedule(&mut rng);
        output.write_all(&(schedule.len() as u32).to_be_bytes())?;
        output.write_all(&schedule)?;
    }
    output.flush()
}
