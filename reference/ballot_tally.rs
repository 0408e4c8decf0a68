//! What a set of schedules meets of ballots (document 02, U14), counted on the reference bench.

use crate::ballot::{is_majority, owner, BallotKind, Taking};
use crate::bench::lock::Lock;
use crate::bench::Bench;
use crate::records::event::Event;
use crate::text::MAX_SCHEDULE;
use crate::vote_set::Verdict;
use std::collections::BTreeMap;

/// Everything that the schedules should meet.
const ROWS: [&str; 42] = [
    "locks with c = 0",
    "locks with c = 1",
    "locks with c = 1 and more than 16 controllers",
    "orders at c = 1 with both words put",
    "orders with two ballots whose takers took different words",
    "orders in which a majority took a word",
    "of them with a taker stopped before",
    "of them Stay",
    "of them Move",
    "majorities of a ballot whose owner had put the other word: a put finished by another owner",
    "owners stopped after their put",
    "puts of the owner's own word",
    "puts of a word that was reported",
    "puts that the owner, having promised a higher ballot, did not take",
    "asks answered",
    "asks answered by one that had taken that ballot",
    "asks below the highest promise",
    "asks come again after their answer",
    "promises that report nothing taken",
    "promises that report a ballot taken",
    "puts taken",
    "puts below the highest promise",
    "puts come again after they were taken",
    "takens come in",
    "arbiter's words given at c = 1, Stay",
    "arbiter's words given at c = 1, Move",
    "arbiter's words given at c = 1 to one standing by",
    "orders after one with ballots",
    "openings refused by 15",
    "openings refused by 28, outside 1 to 255",
    "openings refused by 28, not the controller's",
    "openings refused by 28, opened already",
    "openings refused by 28, below the highest promise",
    "openings refused by 28, c = 0",
    "openings refused by 29, no word put",
    "openings refused by 29, c = 0",
    "deliveries of kinds 5 to 8 refused by 15",
    "deliveries of kinds 5 to 8 refused by 28, c = 1",
    "deliveries of kinds 5 to 8 refused by 28, c = 0",
    "deliveries of kinds 5 to 8 refused by 17, c = 1",
    "deliveries of kinds 5 to 8 refused by 17, c = 0",
    "arbiter's words refused by 18, c = 1",
];

#[derive(Clone, Debug, Default)]
pub struct BallotTally {
    counts: BTreeMap<&'static str, u64>,
    /// Ballots of the order whose owner put the word that it had not put itself.
    adopted: Vec<u8>,
    /// What was counted of the order already.
    met_in_order: Vec<&'static str>,
}

impl BallotTally {
    /// Runs a schedule and counts; one that is too long is not run.
    pub fn add(&mut self, schedule: &[u8]) {
        if schedule.len() > MAX_SCHEDULE {
            return;
        }
        let mut bench = Bench::default();
        self.begin_order();
        for record in schedule.chunks(Event::LENGTH) {
            let before = bench.clone();
            let answer = bench.step_record(record);
            let (Ok(event), Some(lock)) = (Event::read(record), bench.lock()) else {
                continue;
            };
            match (answer, before.lock()) {
                (0, before) => self.add_accepted(&event, before, lock),
                (number, Some(_)) => self.add_refused(&event, lock, number),
                _ => {}
            }
        }
    }

    /// Name and count of everything that the schedules should meet.
    pub fn rows(&self) -> Vec<(String, u64)> {
        let count = |name| self.counts.get(name).copied().unwrap_or(0);
        ROWS.map(|name| (name.to_string(), count(name))).to_vec()
    }

    fn meet(&mut self, name: &'static str) {
        debug_assert!(ROWS.contains(&name), "{name}");
        *self.counts.entry(name).or_default() += 1;
    }

    /// Counts a thing once an order.
    fn meet_in_order(&mut self, name: &'static str) {
        if !self.met_in_order.contains(&name) {
            self.met_in_order.push(name);
            self.meet(name);
        }
    }

    fn begin_order(&mut self) {
        self.adopted.clear();
        self.met_in_order.clear();
    }

    fn add_accepted(&mut self, event: &Event, before: Option<&Lock>, lock: &Lock) {
        match (*event, before) {
            (Event::Lock { ballots: false, .. }, _) => self.meet("locks with c = 0"),
            (Event::Lock { group, .. }, _) => {
                self.meet("locks with c = 1");
                if group.n > 16 {
                    self.meet("locks with c = 1 and more than 16 controllers");
                }
            }
            (Event::Order { .. }, Some(before)) => {
                if !before.ballots_sent().is_empty() {
                    self.meet("orders after one with ballots");
                }
                self.begin_order();
            }
            (Event::DeliverBallot { .. }, Some(before)) => self.add_delivery(event, before, lock),
            (Event::Stop { id }, _) => {
                let mut puts = lock.ballots_sent().iter().filter(|m| m.kind == BallotKind::Put);
                if puts.any(|put| put.from == id) {
                    self.meet("owners stopped after their put");
                }
            }
            (Event::Decision { id, verdict }, _) if lock.has_ballots() => {
                self.meet(match verdict {
                    Verdict::Stay => "arbiter's words given at c = 1, Stay",
                    Verdict::Move => "arbiter's words given at c = 1, Move",
                });
                if !lock.controller(id).is_running() {
                    self.meet("arbiter's words given at c = 1 to one standing by");
                }
            }
            _ => {}
        }
        if lock.has_ballots() && [Verdict::Stay, Verdict::Move].iter().all(|&w| lock.is_proposed(w)) {
            self.meet_in_order("orders at c = 1 with both words put");
        }
    }

    fn add_delivery(&mut self, event: &Event, before: &Lock, lock: &Lock) {
        let Event::DeliverBallot {
            from,
            to,
            kind,
            ballot,
        } = *event
        else {
            return;
        };
        let ballot = ballot as u8;
        let part = before.controller(to).ballots();
        let below = part.is_some_and(|own| ballot < own.highest_promise());
        let answered = lock.ballots_sent().len() > before.ballots_sent().len();
        let message = before.ballot_message(kind, from, to, ballot);
        match (kind, answered) {
            (BallotKind::Ask, true) => {
                self.meet("asks answered");
                let last = part.and_then(|own| own.last_taken());
                if last.is_some_and(|taking| taking.ballot == ballot) {
                    self.meet("asks answered by one that had taken that ballot");
                }
            }
            (BallotKind::Ask, false) if below => self.meet("asks below the highest promise"),
            (BallotKind::Ask, false) => self.meet("asks come again after their answer"),
            (BallotKind::Put, true) => self.meet("puts taken"),
            (BallotKind::Put, false) if below => self.meet("puts below the highest promise"),
            (BallotKind::Put, false) => self.meet("puts come again after they were taken"),
            (BallotKind::Promise, _) => match message.and_then(|message| message.word) {
                None => self.meet("promises that report nothing taken"),
                Some(_) => self.meet("promises that report a ballot taken"),
            },
            (BallotKind::Taken, _) => self.meet("takens come in"),
        }
        if kind == BallotKind::Promise && answered {
            self.add_put(to, ballot, before, lock);
        }
        if lock.takings().len() > before.takings().len() {
            self.add_taking(before, lock);
        }
    }

    fn add_put(&mut self, id: u8, ballot: u8, before: &Lock, lock: &Lock) {
        let put = lock.ballots_sent().last().and_then(|message| message.word);
        if put == lock.controller(id).proposed() {
            self.meet("puts of the owner's own word");
        } else {
            self.meet("puts of a word that was reported");
            self.adopted.push(ballot);
        }
        if lock.takings().len() == before.takings().len() {
            self.meet("puts that the owner, having promised a higher ballot, did not take");
        }
    }

    fn add_taking(&mut self, before: &Lock, lock: &Lock) {
        let takings = lock.takings();
        let Some(&(_, last)) = takings.last() else {
            return;
        };
        let rival = |taking: &Taking| taking.word != last.word;
        if takings.iter().any(|(_, taking)| rival(taking)) {
            self.meet_in_order("orders with two ballots whose takers took different words");
        }
        let reached = |lock: &Lock| is_majority(lock.group(), lock.takers(last).count());
        if !reached(lock) || reached(before) {
            return;
        }
        if self.adopted.contains(&last.ballot) {
            self.meet("majorities of a ballot whose owner had put the other word: a put finished by another owner");
        }
        if self.met_in_order.contains(&"orders in which a majority took a word") {
            return;
        }
        self.meet_in_order("orders in which a majority took a word");
        self.meet(match last.word {
            Verdict::Stay => "of them Stay",
            Verdict::Move => "of them Move",
        });
        if lock.takers(last).iter().any(|id| !lock.controller(id).is_running()) {
            self.meet("of them with a taker stopped before");
        }
    }

    fn add_refused(&mut self, event: &Event, lock: &Lock, number: u8) {
        match (*event, number) {
            (Event::OpenBallot { .. }, 15) => self.meet("openings refused by 15"),
            (Event::OpenBallot { id, ballot }, 28) => self.add_refused_opening(id, ballot, lock),
            (Event::OpenBallot { .. }, 29) if lock.has_ballots() => {
                self.meet("openings refused by 29, no word put");
            }
            (Event::OpenBallot { .. }, 29) => self.meet("openings refused by 29, c = 0"),
            (Event::DeliverBallot { .. }, 15) => {
                self.meet("deliveries of kinds 5 to 8 refused by 15");
            }
            (Event::DeliverBallot { .. }, 28) if lock.has_ballots() => {
                self.meet("deliveries of kinds 5 to 8 refused by 28, c = 1");
            }
            (Event::DeliverBallot { .. }, 28) => {
                self.meet("deliveries of kinds 5 to 8 refused by 28, c = 0");
            }
            (Event::DeliverBallot { .. }, 17) if lock.has_ballots() => {
                self.meet("deliveries of kinds 5 to 8 refused by 17, c = 1");
            }
            (Event::DeliverBallot { .. }, 17) => {
                self.meet("deliveries of kinds 5 to 8 refused by 17, c = 0");
            }
            (Event::Decision { .. }, 18) if lock.has_ballots() => {
                self.meet("arbiter's words refused by 18, c = 1");
            }
            _ => {}
        }
    }

    fn add_refused_opening(&mut self, id: u8, number: u32, lock: &Lock) {
        let part = lock.controller(id).ballots();
        self.meet(match u8::try_from(number) {
            _ if !lock.has_ballots() => "openings refused by 28, c = 0",
            Err(_) | Ok(0) => "openings refused by 28, outside 1 to 255",
            Ok(ballot) if owner(lock.group(), ballot) != Some(id) => {
                "openings refused by 28, not the controller's"
            }
            Ok(ballot) if part.is_some_and(|own| own.opened().any(|opened| opened == ballot)) => {
                "openings refused by 28, opened already"
            }
            Ok(_) => "openings refused by 28, below the highest promise",
        });
    }
}
