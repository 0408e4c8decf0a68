//! Writes sequences of acts for the line of eight locks, each of the same length: gen_line SEQUENCES SEED.

use reference::generate::{acts, numbers_from_arguments};
use reference::rng::Rng;
use std::io::{self, BufWriter, Write};

fn main() -> io::Result<()> {
    let [count, seed] = numbers_from_arguments()?;
    let mut rng = Rng::new(seed);
    let mut output = BufWriter::new(io::stdout().lock());
    for _ in 0..count {
        output.write_all(&acts::sequence(&mut rng))?;
    }
    output.flush()
}
