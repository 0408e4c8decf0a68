//! Writes frames of telegrams alone: gen_telegrams COUNT SEED.

use reference::generate::{frames, numbers_from_arguments};
use reference::rng::Rng;
use std::io::{self, BufWriter, Write};

fn main() -> io::Result<()> {
    let [count, seed] = numbers_from_arguments()?;
    let mut rng = Rng::new(seed);
    let mut output = BufWriter::new(io::stdout().lock());
    for _ in 0..count {
        output.write_all(&frames::telegram(&mut rng))?;
    }
    output.flush()
}
