//! Writes pairs of ranges, and a short piece after them: gen_levels COUNT SEED.

use reference::generate::{numbers_from_arguments, ranges};
use reference::levels;
use reference::rng::Rng;
use std::io::{self, BufWriter, Write};

fn main() -> io::Result<()> {
    let [count, seed] = numbers_from_arguments()?;
    let mut rng = Rng::new(seed);
    let mut output = BufWriter::new(io::stdout().lock());
    for _ in 0..count {
        output.write_all(&ranges::pair(&mut rng))?;
    }
    output.write_all(&[0; levels::LENGTH - 1])?;
    output.flush()
}
