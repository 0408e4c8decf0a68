//! A bench that remembers (document 02, U11, "A step back on the bench"): the bench before each remembered event.

use crate::bench::Bench;
use crate::questions::{answer, ask};
use crate::records::event::Event;
use std::collections::VecDeque;

/// "Up to 64 such events are remembered".
pub const MOST_REMEMBERED: usize = 64;

#[derive(Clone, Debug, Default)]
pub struct Session {
    bench: Bench,
    /// The newest last.
    past: VecDeque<Bench>,
}

impl Session {
    pub fn bench(&self) -> &Bench {
        &self.bench
    }

    pub fn into_bench(self) -> Bench {
        self.bench
    }

    /// How many events are remembered.
    pub fn remembered(&self) -> usize {
        self.past.len()
    }

    /// "a record that reading refuses leaves the bench as it is"
    pub fn step_record(&mut self, record: &[u8]) -> u8 {
        match Event::read(record) {
            Ok(event) => self.step(&event),
            Err(number) => number,
        }
    }

    pub fn step(&mut self, event: &Event) -> u8 {
        match event {
            Event::StepBack => answer(self.step_back()),
            _ => self.play(event),
        }
    }

    fn play(&mut self, event: &Event) -> u8 {
        let before = self.bench.clone();
        let answer = self.bench.step(event);
        // "lock events cannot be undone"
        if answer == 0 && !matches!(event, Event::Lock { .. }) {
            self.past.push_back(before);
            // "one more pushes out the oldest"
            if self.past.len() > MOST_REMEMBERED {
                self.past.pop_front();
            }
        }
        answer
    }

    /// "undoes the last accepted event that is neither a step back nor undone already"; "one undone is dropped".
    fn step_back(&mut self) -> Result<(), u8> {
        ask(5, self.bench.lock().is_some())?;
        // "Refused: 26, nothing to undo; after question 5."
        self.bench = self.past.pop_back().ok_or(26)?;
        Ok(())
    }
}
