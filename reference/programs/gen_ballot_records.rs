//! Writes frames of records with ballots, telegrams of kinds 5 to 8 and events: gen_ballot_records COUNT SEED.

use reference::generate::{ballot_frames, numbers_from_arguments};
use reference::rng::Rng;
use std::io::{self, BufWriter, Write};

fn main() -> io::Result<()> {
    let [count, seed] = numbers_from_arguments()?;
    let mut rng = Rng::new(seed);
    let mut output = BufWriter::new(io::stdout().lock());
    for _ in 0..count {
        output.write_all(&ballot_frames::frame(&mut rng))?;
    }
    output.flush()
}
