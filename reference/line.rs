//! The line that eight locks share. Document 02, U8.

use std::collections::BTreeSet;
use std::fmt::Write;

/// "Refused: 25, a lock number outside 1 to 8."
pub const NO_LOCK: u8 = 25;
pub const LOCKS: u8 = 8;
/// A longer input is not run.
pub const MAX_ACTS: usize = 4_096;

#[derive(Clone, Debug, Default, PartialEq, Eq)]
pub struct Line {
    callers: BTreeSet<u8>,
    last: Option<u8>,
}

impl Line {
    /// "A call by a lock already calling changes nothing."
    pub fn call(&mut self, lock: u8) -> Result<(), u8> {
        if !(1..=LOCKS).contains(&lock) {
            return Err(NO_LOCK);
        }
        self.callers.insert(lock);
        Ok(())
    }

    /// "the first caller met going up from the lock after the last served, with 1 following 8; the first turn starts from 1":
    /// the next caller above the last served, or else the lowest of all.
    pub fn turn(&mut self) -> Option<u8> {
        let last = self.last.unwrap_or(0);
        let above = self.callers.range(last + 1..).next();
        let served = *above.or_else(|| self.callers.first())?;
        self.callers.remove(&served);
        self.last = Some(served);
        Some(served)
    }

    pub fn is_calling(&self, lock: u8) -> bool {
        self.callers.contains(&lock)
    }
}

/// The whole output of the program: a line for each act of a new line, 0 a turn and any other value a call by that lock.
pub fn line_report(acts: &[u8]) -> String {
    if acts.len() > MAX_ACTS {
        return "- 1\n".to_string();
    }
    let mut line = Line::default();
    let mut text = String::new();
    for (index, &act) in acts.iter().enumerate() {
        let _ = match act {
            0 => match line.turn() {
                Some(served) => writeln!(text, "{index} {served}"),
                None => writeln!(text, "{index} -"),
            },
            lock => writeln!(text, "{index} {}", line.call(lock).err().unwrap_or(0)),
        };
    }
    text
}
