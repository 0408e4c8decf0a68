//! One lock: its controllers, and what line, consensus and checkpoint store keep for them.

use crate::ballot::{is_majority, BallotKind, Taking};
use crate::controller::{Answer, Controller};
use crate::group::Group;
use crate::members::Members;
use crate::records::ballot_message::BallotMessage;
use crate::records::checkpoint::Checkpoint;
use crate::records::message::{Message, MessageKind};
use crate::vote_set::Verdict;

#[derive(Clone, PartialEq, Eq, Debug)]
pub struct Lock {
    group: Group,
    /// Whether the controllers settle the word among themselves (document 02, U14).
    has_ballots: bool,
    controllers: Vec<Controller>,
    /// The newest of each controller.
    checkpoints: Vec<Option<Checkpoint>>,
    /// The last order number, 0 before any order.
    order: u32,
    /// What was sent in this order. A controller sends each kind to another at most once an order.
    sent: Vec<Message>,
    /// The words put in this order.
    proposals: Vec<Verdict>,
    /// "the arbiter's choice": the word given in this order.
    decision: Option<Verdict>,
    /// The messages of ballots sent in this order. A controller sends each kind for a ballot to another at most once.
    ballots_sent: Vec<BallotMessage>,
    /// "the bench notes each taking, and a stop keeps the note": who took which ballot in this order.
    takings: Vec<(u8, Taking)>,
}

impl Lock {
    pub fn new(group: Group, has_ballots: bool) -> Lock {
        Lock {
            group,
            has_ballots,
            controllers: group
                .ids()
                .map(|id| Controller::of_lock(group, has_ballots, id, 0))
                .collect(),
            checkpoints: vec![None; usize::from(group.n)],
            order: 0,
            sent: Vec::new(),
            proposals: Vec::new(),
            decision: None,
            ballots_sent: Vec::new(),
            takings: Vec::new(),
        }
    }

    pub fn group(&self) -> Group {
        self.group
    }

    pub fn has_ballots(&self) -> bool {
        self.has_ballots
    }

    pub fn controllers(&self) -> &[Controller] {
        &self.controllers
    }

    pub fn controller(&self, id: u8) -> &Controller {
        &self.controllers[index(id)]
    }

    pub fn controller_mut(&mut self, id: u8) -> &mut Controller {
        &mut self.controllers[index(id)]
    }

    pub fn checkpoint(&self, id: u8) -> Option<Checkpoint> {
        self.checkpoints[index(id)]
    }

    /// "the bench keeps the newest per controller"
    pub fn keep_checkpoint(&mut self, id: u8, checkpoint: Option<Checkpoint>) {
        self.checkpoints[index(id)] = checkpoint;
    }

    /// The last order number, 0 before any order.
    pub fn last_order(&self) -> u32 {
        self.order
    }

    pub fn is_order_open(&self) -> bool {
        self.order != 0
    }

    /// The messages sent in this order.
    pub fn sent(&self) -> &[Message] {
        &self.sent
    }

    pub fn message(&self, kind: MessageKind, from: u8, to: u8) -> Option<Message> {
        let route = |m: &&Message| m.kind == kind && m.from == from && m.to == to;
        self.sent.iter().find(route).copied()
    }

    /// The messages of ballots sent in this order.
    pub fn ballots_sent(&self) -> &[BallotMessage] {
        &self.ballots_sent
    }

    pub fn ballot_message(
        &self,
        kind: BallotKind,
        from: u8,
        to: u8,
        ballot: u8,
    ) -> Option<BallotMessage> {
        let is_meant = |m: &&BallotMessage| {
            m.kind == kind && m.from == from && m.to == to && m.ballot == ballot
        };
        self.ballots_sent.iter().find(is_meant).copied()
    }

    /// Who took which ballot in this order.
    pub fn takings(&self) -> &[(u8, Taking)] {
        &self.takings
    }

    /// Who took that word in that ballot.
    pub fn takers(&self, taking: Taking) -> Members {
        let takers = self.takings.iter().filter(|(_, taken)| *taken == taking);
        takers.fold(Members::NONE, |set, (id, _)| set.union(Members::only(*id)))
    }

    /// "whether more than n/2 have taken the word in one ballot"
    pub fn is_chosen(&self, word: Verdict) -> bool {
        let mut of_word = self.takings.iter().filter(|(_, taking)| taking.word == word);
        of_word.any(|(_, taking)| is_majority(self.group, self.takers(*taking).count()))
    }

    /// The words put in this order.
    pub fn proposals(&self) -> &[Verdict] {
        &self.proposals
    }

    pub fn is_proposed(&self, verdict: Verdict) -> bool {
        self.proposals.contains(&verdict)
    }

    pub fn decision(&self) -> Option<Verdict> {
        self.decision
    }

    /// Notes the word given.
    pub fn give(&mut self, verdict: Verdict) {
        self.decision = Some(verdict);
    }

    /// "Old telegrams, words put and the arbiter's choice are gone; cards remain."
    pub fn open(&mut self, number: u32) {
        self.order = number;
        self.sent.clear();
        self.proposals.clear();
        self.decision = None;
        // "A new order forgets ballots, promises and takings."
        self.ballots_sent.clear();
        self.takings.clear();
        for controller in &mut self.controllers {
            controller.new_order(number);
        }
    }

    /// Keeps what a controller sent or put: it outlives a stop.
    pub fn note(&mut self, from: u8, answer: Answer) {
        for sending in answer.sent {
            for to in sending.receivers.iter() {
                self.sent.push(Message {
                    kind: sending.kind,
                    group: self.group,
                    from,
                    to,
                    order: self.order,
                    votes: sending.votes,
                });
            }
        }
        self.proposals.extend(answer.proposal);
        for sending in answer.ballots_sent {
            for to in sending.receivers.iter() {
                self.ballots_sent.push(BallotMessage {
                    kind: sending.kind,
                    group: self.group,
                    from,
                    to,
                    order: self.order,
                    ballot: sending.ballot,
                    last: sending.last,
                    word: sending.word,
                });
            }
        }
        self.takings.extend(answer.taking.map(|taking| (from, taking)));
    }
}

fn index(id: u8) -> usize {
    usize::from(id) - 1
}
