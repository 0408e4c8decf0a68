//! Builds a schedule while running it, so that most of its events are accepted.

use super::choices;
use crate::ballot::BallotKind;
use crate::bench::lock::Lock;
use crate::bench::Bench;
use crate::controller::Controller;
use crate::group::{Group, MAX_CONTROLLERS};
use crate::records::ballot_message::BallotMessage;
use crate::records::event::Event;
use crate::records::message::{Message, MessageKind};
use crate::rng::Rng;
use crate::vote_set::Verdict;

pub struct Player {
    pub rng: Rng,
    bench: Bench,
    bytes: Vec<u8>,
    /// The most events of the schedule.
    limit: usize,
    /// Out of a hundred events, how many get a stray one before them.
    stray: usize,
    /// By the place among the messages sent in this order.
    delivered: Vec<bool>,
    /// The same of the messages of ballots.
    ballots_delivered: Vec<bool>,
    /// Whether stray events are of ballots too.
    with_ballots: bool,
}

impl Player {
    pub fn new(mut rng: Rng, limit: usize) -> Player {
        let stray = rng.pick(&[0, 0, 2, 10]);
        Player {
            rng,
            bench: Bench::default(),
            bytes: Vec::new(),
            limit,
            stray,
            delivered: Vec::new(),
            ballots_delivered: Vec::new(),
            with_ballots: false,
        }
    }

    /// Among its stray events are some of ballots.
    pub fn with_ballots(mut self) -> Player {
        self.with_ballots = true;
        self
    }

    pub fn into_bytes(self) -> Vec<u8> {
        self.bytes
    }

    /// How many events may follow.
    pub fn room(&self) -> usize {
        self.limit - self.bytes.len() / Event::LENGTH
    }

    /// The lock, which is set up before the first order.
    pub fn lock(&self) -> &Lock {
        self.bench.lock().expect("a lock")
    }

    pub fn group(&self) -> Group {
        self.lock().group()
    }

    pub fn ids_where(&self, holds: impl Fn(&Controller) -> bool) -> Vec<u8> {
        let controllers = self.bench.lock().map_or(&[][..], Lock::controllers);
        let fitting = controllers.iter().filter(|c| holds(c));
        fitting.map(Controller::id).collect()
    }

    /// The running controllers, and now and then another, in random order.
    pub fn shuffled_ids(&mut self) -> Vec<u8> {
        let mut ids = self.ids_where(Controller::is_running);
        if self.rng.chance(1, 10) {
            ids = self.group().ids().collect();
        }
        self.rng.shuffle(&mut ids);
        ids
    }

    /// Adds the event, perhaps after a stray one.
    pub fn play(&mut self, event: Event) {
        if self.rng.chance(self.stray, 100) {
            self.play_harmless();
        }
        self.put(event);
    }

    fn put(&mut self, event: Event) {
        let mut record = [0; Event::LENGTH];
        event.write(&mut record);
        self.put_record(record);
    }

    fn put_record(&mut self, record: [u8; Event::LENGTH]) {
        if self.room() == 0 {
            return;
        }
        self.bytes.extend(record);
        let accepted = self.bench.step_record(&record) == 0;
        if accepted && matches!(Event::read(&record), Ok(Event::Order { .. })) {
            self.delivered.clear();
            self.ballots_delivered.clear();
        }
        let sent = self.bench.lock().map_or(0, |lock| lock.sent().len());
        self.delivered.resize(sent, false);
        let sent = self.bench.lock().map_or(0, |lock| lock.ballots_sent().len());
        self.ballots_delivered.resize(sent, false);
    }

    /// Something that changes no order's course: a save, a refused event or a damaged record.
    fn play_harmless(&mut self) {
        match self.rng.below(8) {
            0 => self.put_damaged(),
            1 => {
                let ids = self.ids_where(|c| !c.is_stopped());
                if !ids.is_empty() {
                    let id = self.rng.pick(&ids);
                    self.put(Event::Save { id });
                }
            }
            _ => {
                let event = self.any_event();
                if self.bench.clone().step(&event) != 0 {
                    self.put(event);
                }
            }
        }
    }

    /// Adds any event, accepted or not.
    pub fn play_any(&mut self) {
        let event = self.any_event();
        self.put(event);
    }

    /// Adds a record that reading refuses.
    fn put_damaged(&mut self) {
        let mut record = [0; Event::LENGTH];
        loop {
            let event = self.any_event();
            event.write(&mut record);
            let at = self.rng.below(Event::LENGTH);
            record[at] = self.rng.pick(&[0, 1, 2, 5, 9, 0x4B, 0x53, 255]);
            if Event::read(&record).is_err() {
                return self.put_record(record);
            }
        }
    }

    /// Any event with fields in or near their ranges.
    fn any_event(&mut self) -> Event {
        if self.with_ballots && self.rng.chance(1, 2) {
            return self.any_ballot_event();
        }
        let lock = self.bench.lock();
        let last = lock.map_or(0, Lock::last_order);
        let group = match lock {
            Some(lock) => lock.group(),
            None => choices::group(&mut self.rng, MAX_CONTROLLERS),
        };
        let id = self.near_id(group);
        match self.rng.below(12) {
            0 if self.rng.chance(1, 2) => Event::Lock {
                group: choices::bad_group(&mut self.rng),
                ballots: false,
            },
            0 => Event::Lock {
                group: choices::group(&mut self.rng, MAX_CONTROLLERS),
                ballots: false,
            },
            1 => Event::Order {
                number: self
                    .rng
                    .pick(&[0, 1, last, last / 2, last.saturating_add(1)]),
            },
            2 | 3 => Event::Vote {
                id,
                willing: self.rng.chance(1, 2),
                target: match self.rng.below(3) {
                    0 => choices::bad_position(&mut self.rng),
                    _ => choices::position(&mut self.rng),
                },
            },
            4 => Event::Deliver {
                from: id,
                to: self.near_id(group),
                kind: choices::kind(&mut self.rng),
            },
            5 => {
                let kind = choices::kind(&mut self.rng);
                let (from, to) = choices::route(&mut self.rng, group, kind, true);
                Event::Deliver { from, to, kind }
            }
            6 => Event::Timeout { id },
            7 | 8 => Event::Decision {
                id,
                verdict: choices::verdict(&mut self.rng),
            },
            9 if self.rng.chance(1, 4) => Event::Stop { id },
            10 => Event::Save { id },
            _ => Event::Restore { id },
        }
    }

    /// Any event of ballots, or a lock of either kind, with fields in or near their ranges.
    fn any_ballot_event(&mut self) -> Event {
        let group = match self.bench.lock() {
            Some(lock) => lock.group(),
            None => choices::group(&mut self.rng, MAX_CONTROLLERS),
        };
        let id = self.near_id(group);
        let ballot = choices::ballot_number(&mut self.rng, group, id);
        match self.rng.below(8) {
            0 => Event::Lock {
                group,
                ballots: self.rng.chance(1, 2),
            },
            1..=3 => Event::OpenBallot { id, ballot },
            4 => Event::Decision {
                id,
                verdict: choices::verdict(&mut self.rng),
            },
            _ => Event::DeliverBallot {
                from: id,
                to: self.near_id(group),
                kind: self.rng.pick(&BallotKind::ALL),
                ballot,
            },
        }
    }

    fn near_id(&mut self, group: Group) -> u8 {
        if self.rng.chance(1, 12) {
            choices::bad_id(&mut self.rng, group)
        } else {
            choices::id(&mut self.rng, group)
        }
    }

    pub fn vote(&mut self, id: u8, willing: bool) {
        let target = choices::position(&mut self.rng);
        self.play(Event::Vote {
            id,
            willing,
            target,
        });
    }

    pub fn timeout(&mut self, id: u8) {
        self.play(Event::Timeout { id });
    }

    pub fn decide(&mut self, id: u8, verdict: Verdict) {
        self.play(Event::Decision { id, verdict });
    }

    pub fn save(&mut self, id: u8) {
        self.play(Event::Save { id });
    }

    /// Stops a controller, mostly saved before, so that it can come back.
    pub fn stop(&mut self, id: u8) {
        if self.lock().checkpoint(id).is_none() && self.rng.chance(14, 15) {
            self.save(id);
        }
        self.play(Event::Stop { id });
    }

    pub fn restore(&mut self, id: u8) {
        self.play(Event::Restore { id });
    }

    /// Delivers the message with that place among those sent in this order.
    pub fn deliver(&mut self, place: usize) {
        self.delivered[place] = true;
        let Message { from, to, kind, .. } = self.lock().sent()[place];
        self.play(Event::Deliver { from, to, kind });
    }

    pub fn open_ballot(&mut self, id: u8, ballot: u8) {
        let ballot = ballot.into();
        self.play(Event::OpenBallot { id, ballot });
    }

    /// Delivers the message of a ballot with that place among those sent in this order.
    pub fn deliver_ballot(&mut self, place: usize) {
        self.ballots_delivered[place] = true;
        let BallotMessage {
            from,
            to,
            kind,
            ballot,
            ..
        } = self.lock().ballots_sent()[place];
        self.play(Event::DeliverBallot {
            from,
            to,
            kind,
            ballot: ballot.into(),
        });
    }

    /// The places of the messages of ballots that fit, in random order.
    pub fn ballot_places(&mut self, fits: impl Fn(&BallotMessage) -> bool) -> Vec<usize> {
        let sent = self.lock().ballots_sent().iter().enumerate();
        let fitting = sent.filter(|(_, message)| fits(message));
        let mut places: Vec<usize> = fitting.map(|(place, _)| place).collect();
        self.rng.shuffle(&mut places);
        places
    }

    /// Those of a kind that were not delivered yet and whose receiver runs.
    pub fn pending_ballots(&mut self, kind: BallotKind) -> Vec<usize> {
        let running = self.ids_where(Controller::is_running);
        let mut places =
            self.ballot_places(|message| message.kind == kind && running.contains(&message.to));
        places.retain(|&place| !self.ballots_delivered[place]);
        places
    }

    /// The places of the messages that fit, in random order.
    pub fn places(&mut self, fits: impl Fn(&Message) -> bool) -> Vec<usize> {
        let sent = self.lock().sent().iter().enumerate();
        let fitting = sent.filter(|(_, message)| fits(message));
        let mut places: Vec<usize> = fitting.map(|(place, _)| place).collect();
        self.rng.shuffle(&mut places);
        places
    }

    /// Those of a kind that were not delivered yet and whose receiver runs.
    pub fn pending(&mut self, kind: MessageKind) -> Vec<usize> {
        let running = self.ids_where(Controller::is_running);
        let mut places =
            self.places(|message| message.kind == kind && running.contains(&message.to));
        places.retain(|&place| !self.delivered[place]);
        places
    }

    /// A word that may be given now.
    pub fn verdict(&mut self) -> Option<Verdict> {
        let lock = self.lock();
        let given = lock.decision();
        let mut proposed = vec![Verdict::Stay, Verdict::Move];
        if lock.has_ballots() {
            return proposed.into_iter().find(|&verdict| lock.is_chosen(verdict));
        }
        proposed.retain(|&verdict| lock.is_proposed(verdict));
        if given.is_some() || proposed.is_empty() {
            return given;
        }
        Some(self.rng.pick(&proposed))
    }
}
