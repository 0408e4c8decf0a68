//! Writes frames of schedules in either form, whole and damaged: gen_text COUNT SEED.

use reference::generate::{numbers_from_arguments, texts};
use reference::rng::Rng;
use std::io::{self, BufWriter, Write};

fn main() -> io::Result<()> {
    let [count, seed] = numbers_from_arguments()?;
    let mut rng = Rng::new(seed);
    let mut output = BufWriter::new(io::stdout().lock());
    for _ in 0..count {
        output.write_all(&texts::frame(&mut rng))?;
    }
    output.flush()
}
