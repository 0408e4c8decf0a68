//! Schedules with steps back (document 02, U11), at locks of both kinds: those of the other sets, with runs of 1 to 70 steps
//! back woven in. What a run undid is then played again, or a part of it, or something else is.

use super::{ballots, schedules};
use crate::records::event::Event;
use crate::rng::Rng;
use crate::session::Session;
use schedules::MAX_EVENTS;

/// A schedule, mostly of some hundred events.
pub fn schedule(rng: &mut Rng) -> Vec<u8> {
    let source = if rng.chance(1, 2) {
        ballots::schedule(rng)
    } else {
        let limit = rng.between(10, 500);
        let most = rng.pick(&[3, 5, 16, 32]);
        schedules::played(rng, limit, most)
    };
    let mut weaver = Weaver::default();
    // Out of a thousand records, how many have steps back before them.
    let often = rng.pick(&[5, 20, 60, 150]);
    for record in source.chunks(Event::LENGTH) {
        if rng.chance(often, 1000) {
            weaver.step_back_and_on(rng);
        }
        let before_lock = weaver.left.is_empty();
        weaver.put(record);
        if before_lock && !weaver.left.is_empty() && rng.chance(1, 4) {
            weaver.put_event(Event::StepBack);
        }
    }
    if rng.chance(1, 2) {
        weaver.run_of_steps(rng);
    }
    weaver.bytes
}

#[derive(Default)]
struct Weaver {
    session: Session,
    /// The accepted events that are not undone.
    left: Vec<Event>,
    bytes: Vec<u8>,
}

impl Weaver {
    fn put(&mut self, record: &[u8]) {
        if self.bytes.len() / Event::LENGTH >= MAX_EVENTS {
            return;
        }
        self.bytes.extend(record);
        if let (0, Ok(event)) = (self.session.step_record(record), Event::read(record)) {
            match event {
                Event::StepBack => drop(self.left.pop()),
                event => self.left.push(event),
            }
        }
    }

    fn put_event(&mut self, event: Event) {
        let mut record = [0; Event::LENGTH];
        event.write(&mut record);
        self.put(&record);
    }

    /// A run of steps back; answers the events that it undid, in the sequence in which they were played.
    fn run_of_steps(&mut self, rng: &mut Rng) -> Vec<Event> {
        let length = match rng.below(12) {
            0..=5 => 1,
            6..=8 => rng.between(2, 5),
            9 | 10 => rng.between(6, 63),
            _ => rng.between(64, 70),
        };
        let before = self.left.clone();
        for _ in 0..length {
            self.put_event(Event::StepBack);
        }
        before[self.left.len()..].to_vec()
    }

    /// A run of steps back; then what was undone once more, or the beginning of it, or nothing of it.
    fn step_back_and_on(&mut self, rng: &mut Rng) {
        let undone = self.run_of_steps(rng);
        let again = match rng.below(6) {
            0 => 0,
            1 => undone.len() / 2,
            _ => undone.len(),
        };
        for event in &undone[..again] {
            self.put_event(*event);
        }
    }
}
