//! What comes of ballots to the controller of a script (document 02, U14).

use super::Script;
use crate::ballot::{owner, BallotKind};
use crate::command::Command;
use crate::controller::Answer;
use crate::generate::choices;
use crate::group::Group;
use crate::records::ballot_message::BallotMessage;
use crate::vote_set::Verdict;
use std::collections::BTreeMap;

/// The ballots of one order, as the others tell of them.
#[derive(Default)]
pub struct BallotPlan {
    /// The word put in a ballot: one for all who tell of it.
    words: BTreeMap<u8, Verdict>,
    /// The own ballots opened, and those put.
    opened: Vec<u8>,
    put: Vec<u8>,
    last: Option<BallotMessage>,
}

impl Script<'_> {
    /// A command of ballots, mostly once a word is put; none where the turn is not theirs.
    pub fn ballot_command(&mut self) -> Option<Command> {
        self.ballots.as_ref()?;
        let has_proposed = self.controller.proposed().is_some();
        let turns = match (self.controller.is_running(), has_proposed) {
            (true, true) => 90,
            (true, false) => 20,
            (false, _) => 40,
        };
        if !self.rng.chance(turns, 100) {
            return None;
        }
        Some(match self.rng.below(20) {
            0..=2 => Command::OpenBallot(self.ballot_to_open()),
            3..=6 => Command::ReceiveBallot(self.from_owner(BallotKind::Ask)),
            7..=9 => Command::ReceiveBallot(self.from_owner(BallotKind::Put)),
            10..=15 => Command::ReceiveBallot(self.to_owner()),
            16 | 17 => Command::ReceiveBallot(self.last_ballot_message()),
            _ => Command::ReceiveBallot(self.misled_ballot_message()),
        })
    }

    /// Notes what a command did of ballots.
    pub fn note_ballots(&mut self, command: &Command, answer: &Answer) {
        let Some(plan) = &mut self.ballots else {
            return;
        };
        match *command {
            Command::OpenBallot(ballot) if answer.is_taken() => plan.opened.push(ballot),
            Command::ReceiveBallot(message) => plan.last = Some(message),
            Command::NewOrder { .. } => *plan = BallotPlan::default(),
            _ => {}
        }
        for sending in &answer.ballots_sent {
            if let (BallotKind::Put, Some(word)) = (sending.kind, sending.word) {
                plan.put.push(sending.ballot);
                plan.words.insert(sending.ballot, word);
            }
        }
    }

    fn plan_of_ballots(&mut self) -> &mut BallotPlan {
        self.ballots.as_mut().expect("a plan of ballots")
    }

    /// The word put in a ballot, chosen when it is first told of.
    fn word_in(&mut self, ballot: u8) -> Verdict {
        let word = choices::verdict(self.rng);
        *self.plan_of_ballots().words.entry(ballot).or_insert(word)
    }

    fn is_own(&self, ballot: u8) -> bool {
        owner(self.group(), ballot) == Some(self.controller.id())
    }

    /// A ballot near the highest promise, mostly not below it.
    fn near_ballot(&mut self) -> u8 {
        let part = self.controller.ballots();
        let highest = usize::from(part.map_or(0, |own| own.highest_promise()));
        let n = usize::from(self.group().n);
        let ballot = match self.rng.below(8) {
            0 => self.rng.between(1, 255),
            1 | 2 => self.rng.between(1, highest.max(1)),
            3 => highest.max(1),
            _ => self.rng.between(highest + 1, highest + n),
        };
        ballot.clamp(1, 255) as u8
    }

    fn ballot_to_open(&mut self) -> u8 {
        let own: Vec<u8> = (1..=255).filter(|&ballot| self.is_own(ballot)).collect();
        let part = self.controller.ballots();
        let highest = part.map_or(0, |part| part.highest_promise());
        let above: Vec<u8> = own.iter().copied().filter(|&own| own >= highest).collect();
        match self.rng.below(12) {
            0 => self.rng.pick(&[0, 1, 2, 254, 255]),
            1 => self.near_ballot(),
            2 => self.rng.pick(&own),
            3 if !above.is_empty() => self.rng.pick(&above),
            _ => above.first().copied().unwrap_or(own[0]),
        }
    }

    /// An ask or a put of another's ballot.
    fn from_owner(&mut self, kind: BallotKind) -> BallotMessage {
        let mut ballot = self.near_ballot();
        while self.is_own(ballot) {
            ballot = match self.rng.below(3) {
                0 => self.near_ballot(),
                _ => self.rng.between(1, 255) as u8,
            };
        }
        let from = owner(self.group(), ballot).expect("a ballot from 1 on");
        let word = (kind == BallotKind::Put).then(|| self.word_in(ballot));
        self.ballot_message(kind, from, ballot, 0, word)
    }

    /// Mostly a promise, for one of the own ballots that were opened; else a taken, or a promise for one that was not.
    fn to_owner(&mut self) -> BallotMessage {
        let opened = self.plan_of_ballots().opened.clone();
        let put = self.plan_of_ballots().put.clone();
        let own: Vec<u8> = (1..=255).filter(|&ballot| self.is_own(ballot)).collect();
        let ballot = match self.rng.below(10) {
            0 => self.rng.pick(&own),
            1 => self.near_ballot(),
            _ => match (opened.as_slice(), self.rng.chance(2, 3)) {
                ([], _) => own[0],
                ([.., last], true) => *last,
                (some, false) => self.rng.pick(some),
            },
        };
        let from = self.another();
        if self.rng.chance(1, 8) {
            let word = self.word_in(ballot);
            return self.ballot_message(BallotKind::Taken, from, ballot, 0, Some(word));
        }
        let last = self.reported(ballot, &put);
        let word = (last != 0).then(|| self.word_in(last));
        self.ballot_message(BallotKind::Promise, from, ballot, last, word)
    }

    /// What a promise reports: nothing, another's ballot, one of the own that was put, or the ballot itself.
    fn reported(&mut self, ballot: u8, put: &[u8]) -> u8 {
        let is_told = |last: &u8| !self.is_own(*last) || put.contains(last) || *last == ballot;
        let told: Vec<u8> = (1..=ballot).filter(is_told).collect();
        match (told.as_slice(), self.rng.below(5)) {
            ([.., last], 0) => *last,
            (some @ [_, ..], 1 | 2) => self.rng.pick(some),
            _ => 0,
        }
    }

    /// The last message of a ballot once more.
    fn last_ballot_message(&mut self) -> BallotMessage {
        match self.plan_of_ballots().last {
            Some(message) => message,
            None => self.from_owner(BallotKind::Ask),
        }
    }

    /// A message of another order, group, receiver or sender, or with last or word that does not suit its kind.
    fn misled_ballot_message(&mut self) -> BallotMessage {
        let kind = self.rng.pick(&[BallotKind::Ask, BallotKind::Put]);
        let mut message = match self.rng.below(2) {
            0 => self.from_owner(kind),
            _ => self.to_owner(),
        };
        let group = self.group();
        match self.rng.below(9) {
            0 => {
                let near = [message.order.wrapping_add(1), message.order.wrapping_sub(1)];
                message.order = self.rng.pick(&near).max(1);
            }
            1 => message.to = self.another(),
            2 => {
                let Group { n, f } = group;
                let near = [Group { n: n + 1, f }, Group { n: n + 1, f: f + 1 }];
                message.group = self.rng.pick(&near);
            }
            3 => message.from = choices::bad_id(self.rng, group),
            4 => message.from = self.controller.id(),
            5 => message.ballot = 0,
            // From one that does not own the ballot.
            6 => message.from = self.another(),
            7 if message.kind != BallotKind::Promise => message.last = 1,
            7 if message.ballot < 255 => message.last = message.ballot + 1,
            _ => {
                let word = choices::verdict(self.rng);
                message.word = message.word.is_none().then_some(word);
            }
        }
        message
    }

    /// Another controller of the lock.
    fn another(&mut self) -> u8 {
        let id = self.controller.id();
        let others: Vec<u8> = self.group().ids().filter(|&other| other != id).collect();
        self.rng.pick(&others)
    }

    /// A message of this order and group to this controller.
    fn ballot_message(
        &self,
        kind: BallotKind,
        from: u8,
        ballot: u8,
        last: u8,
        word: Option<Verdict>,
    ) -> BallotMessage {
        BallotMessage {
            kind,
            group: self.group(),
            from,
            to: self.controller.id(),
            order: self.controller.order(),
            ballot,
            last,
            word,
        }
    }
}
