//! Writes sequences of controller commands with ballots: gen_ballot_controller SEQUENCES SEED.

use reference::generate::{commands, numbers_from_arguments};
use reference::rng::Rng;
use std::io::{self, BufWriter, Write};

fn main() -> io::Result<()> {
    let [count, seed] = numbers_from_arguments()?;
    let mut rng = Rng::new(seed);
    let mut output = BufWriter::new(io::stdout().lock());
    for _ in 0..count {
        for command in commands::sequence_with_ballots(&mut rng) {
            output.write_all(&command.bytes())?;
        }
    }
    output.flush()
}
