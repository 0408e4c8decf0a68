//! Traces with a fault.

use crate::rng::Rng;

const WORDS: [&str; 12] =
    ["0", "33", "255", "4294967296", "-1", "move", "vote", "ask", "> back", "accepted", "C", "undone 1"];

/// What a text may say where no event stands: characters that XML does not take as they are.
const NO_EVENT: &[u8] = b"- line 3: <&>\"'\x01]]>";

/// A trace with a line left out, put twice, exchanged or added, a word exchanged, a byte changed, or an end that came early.
pub fn damaged(rng: &mut Rng, trace: &[u8]) -> Vec<u8> {
    if trace.is_empty() {
        return vec![rng.byte()];
    }
    let at = rng.below(trace.len());
    let mut bytes = trace.to_vec();
    match rng.below(3) {
        0 => bytes[at] = rng.byte(),
        1 => bytes.truncate(at),
        _ => return damaged_lines(rng, trace),
    }
    bytes
}

fn damaged_lines(rng: &mut Rng, trace: &[u8]) -> Vec<u8> {
    let mut lines: Vec<Vec<u8>> = trace.split(|byte| *byte == b'\n').map(<[u8]>::to_vec).collect();
    let (at, other) = (rng.below(lines.len()), rng.below(lines.len()));
    match rng.below(5) {
        0 => {
            lines.remove(at);
        }
        3 => lines.insert(at, NO_EVENT.to_vec()),
        1 => lines.insert(at, lines[other].clone()),
        2 => lines.swap(at, other),
        _ => {
            let mut words: Vec<&[u8]> = lines[at].split(|byte| *byte == b' ').collect();
            let place = rng.below(words.len());
            words[place] = rng.pick(&WORDS).as_bytes();
            lines[at] = words.join(&b' ');
        }
    }
    lines.join(&b'\n')
}
