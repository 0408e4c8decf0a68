//! What a set of schedules meets, counted on the reference bench.

use crate::bench::lock::Lock;
use crate::bench::Bench;
use crate::clean::OrderLog;
use crate::records::event::Event;
use crate::text::{sent_by_kind, MAX_SCHEDULE};
use crate::vote_set::Verdict;

/// Question 9 asks of a message's votes and so never answers an event.
const REFUSALS: [usize; 18] = [
    1, 2, 3, 4, 5, 6, 7, 8, 10, 11, 12, 13, 14, 15, 16, 17, 18, 19,
];

#[derive(Clone, Debug, Default)]
pub struct Tally {
    accepted: u64,
    /// Locks by whether they have more controllers than the short form of a telegram takes (document 02, U12).
    locks: [u64; 2],
    refused: [u64; 25],
    sent: [u64; 4],
    stay_given: u64,
    move_given: u64,
    clean: u64,
    unclean: u64,
    restored_with_outcome: u64,
    restored_without_outcome: u64,
}

impl Tally {
    /// Runs a schedule and counts; one that is too long is not run.
    pub fn add(&mut self, schedule: &[u8]) {
        if schedule.len() > MAX_SCHEDULE {
            return;
        }
        let mut bench = Bench::default();
        let mut log = None;
        for record in schedule.chunks(Event::LENGTH) {
            let sent_before = sent_by_kind(&bench);
            let answer = bench.step_record(record);
            if answer != 0 {
                self.refused[usize::from(answer)] += 1;
                continue;
            }
            self.accepted += 1;
            if let (Ok(event), Some(lock)) = (Event::read(record), bench.lock()) {
                self.add_accepted(&event, lock, &mut log);
            }
            for (kind, sent) in sent_by_kind(&bench).into_iter().enumerate() {
                self.sent[kind] += sent.saturating_sub(sent_before[kind]);
            }
        }
    }

    fn add_accepted(&mut self, event: &Event, lock: &Lock, log: &mut Option<OrderLog>) {
        if let Event::Order { .. } = event {
            *log = Some(OrderLog::new(lock.group()));
        }
        if let Some(log) = log {
            if log.add(event) {
                let count = if log.is_clean() {
                    &mut self.clean
                } else {
                    &mut self.unclean
                };
                *count += 1;
            }
        }
        match *event {
            Event::Lock { group, .. } => self.locks[usize::from(group.n > 16)] += 1,
            Event::Decision { verdict, .. } => match verdict {
                Verdict::Stay => self.stay_given += 1,
                Verdict::Move => self.move_given += 1,
            },
            Event::Restore { id } => match lock.controller(id).outcome() {
                Some(_) => self.restored_with_outcome += 1,
                None => self.restored_without_outcome += 1,
            },
            _ => {}
        }
    }

    /// How often a delivered sheet contradicted one held: "no event of any list from a new bench meets it".
    pub fn contradictions(&self) -> u64 {
        self.refused[24]
    }

    /// Name and count of everything that the schedules should meet.
    pub fn rows(&self) -> Vec<(String, u64)> {
        let [votes, acks, helps, helpeds] = self.sent;
        let mut rows = vec![("accepted events".to_string(), self.accepted)];
        rows.extend(REFUSALS.map(|number| (format!("refusals by {number}"), self.refused[number])));
        let [narrow, wide] = self.locks;
        let others = [
            ("locks of up to 16 controllers", narrow),
            ("locks of 17 controllers and more", wide),
            ("votes sent", votes),
            ("acknowledgements sent", acks),
            ("help calls sent", helps),
            ("help answers sent", helpeds),
            ("arbiter's words Stay", self.stay_given),
            ("arbiter's words Move", self.move_given),
            ("second bells, order clean", self.clean),
            ("second bells, order not clean", self.unclean),
            ("restores with an outcome", self.restored_with_outcome),
            ("restores without an outcome", self.restored_without_outcome),
        ];
        rows.extend(others.map(|(name, count)| (name.to_string(), count)));
        rows
    }
}
