//! One controller as a step machine, off the bench: its condition and what outlives it.

pub mod ballots;
pub mod participant;

use crate::ballot::{BallotKind, Taking};
use crate::group::Group;
use crate::members::Members;
use crate::records::ballot_message::BallotMessage;
use crate::records::checkpoint::Checkpoint;
use crate::records::message::{Message, MessageKind};
use crate::vote_set::{Verdict, VoteSet};
use ballots::Ballots;
use participant::Participant;

/// "A controller's condition is running, stopped or standing by, and it carries the outcome, if any."
#[derive(Clone, PartialEq, Eq, Debug)]
pub enum Condition {
    Running(Participant),
    Stopped,
    Standby(Option<Verdict>),
}

#[derive(Clone, PartialEq, Eq, Debug)]
pub struct Controller {
    group: Group,
    /// Whether the controllers settle the word among themselves: the lock's c (document 02, U14).
    has_ballots: bool,
    id: u8,
    order: u32,
    position: i32,
    condition: Condition,
}

/// One message to several receivers.
#[derive(Clone, Copy, PartialEq, Eq, Debug)]
pub struct Sending {
    pub kind: MessageKind,
    pub receivers: Members,
    pub votes: VoteSet,
}

/// One message of a ballot to several receivers.
#[derive(Clone, Copy, PartialEq, Eq, Debug)]
pub struct BallotSending {
    pub kind: BallotKind,
    pub receivers: Members,
    pub ballot: u8,
    pub last: u8,
    pub word: Option<Verdict>,
}

/// What became of a call; unless it was taken nothing changed.
#[derive(Clone, Copy, PartialEq, Eq, Debug, Default)]
pub enum Reception {
    Taken,
    #[default]
    PassedOver,
    /// "Refused by the controller: 24, a delivered sheet that contradicts one held" (document 02, U7).
    Contradicted,
}

/// What one call did.
#[derive(Clone, PartialEq, Eq, Debug, Default)]
pub struct Answer {
    pub reception: Reception,
    pub sent: Vec<Sending>,
    /// The word put to the arbiter.
    pub proposal: Option<Verdict>,
    pub ballots_sent: Vec<BallotSending>,
    /// The ballot that the controller took.
    pub taking: Option<Taking>,
}

impl Answer {
    pub fn passed_over() -> Answer {
        Answer::default()
    }

    pub fn taken() -> Answer {
        Answer {
            reception: Reception::Taken,
            ..Answer::default()
        }
    }

    pub fn contradicted() -> Answer {
        Answer {
            reception: Reception::Contradicted,
            ..Answer::default()
        }
    }

    pub fn is_taken(&self) -> bool {
        self.reception == Reception::Taken
    }

    pub fn sending(mut self, kind: MessageKind, receivers: Members, votes: VoteSet) -> Answer {
        if !receivers.is_empty() {
            self.sent.push(Sending {
                kind,
                receivers,
                votes,
            });
        }
        self
    }

    pub fn proposing(mut self, proposal: Option<Verdict>) -> Answer {
        self.proposal = proposal;
        self
    }

    pub fn sending_ballot(mut self, sending: BallotSending) -> Answer {
        self.ballots_sent.push(sending);
        self
    }

    pub fn taking(mut self, taking: Taking) -> Answer {
        self.taking = Some(taking);
        self
    }

    /// Whether the call sent, put and took nothing.
    pub fn is_silent(&self) -> bool {
        let nothing = Answer {
            reception: self.reception,
            ..Answer::default()
        };
        *self == nothing
    }
}

impl Controller {
    /// A controller of a lock with an arbiter. "a gate starts at 0"; "every controller is running at stage 0, without
    /// outcome".
    pub fn new(group: Group, id: u8, order: u32) -> Controller {
        Controller::of_lock(group, false, id, order)
    }

    /// A controller of a lock of either kind.
    pub fn of_lock(group: Group, has_ballots: bool, id: u8, order: u32) -> Controller {
        Controller {
            group,
            has_ballots,
            id,
            order,
            position: 0,
            condition: Condition::Running(Participant::new(group, has_ballots, id)),
        }
    }

    /// The same with its gate at this position.
    pub fn standing_at(self, position: i32) -> Controller {
        Controller { position, ..self }
    }

    pub fn group(&self) -> Group {
        self.group
    }

    pub fn has_ballots(&self) -> bool {
        self.has_ballots
    }

    pub fn id(&self) -> u8 {
        self.id
    }

    pub fn order(&self) -> u32 {
        self.order
    }

    pub fn position(&self) -> i32 {
        self.position
    }

    pub fn outcome(&self) -> Option<Verdict> {
        match &self.condition {
            Condition::Running(participant) => participant.outcome(),
            Condition::Stopped => None,
            Condition::Standby(outcome) => *outcome,
        }
    }

    /// "A running one has a stage, 0 to 3."
    pub fn phase(&self) -> Option<u8> {
        match &self.condition {
            Condition::Running(participant) => Some(participant.phase()),
            Condition::Stopped | Condition::Standby(_) => None,
        }
    }

    pub fn is_waiting(&self) -> bool {
        matches!(&self.condition, Condition::Running(participant) if participant.is_waiting())
    }

    /// The callers whose help calls are kept: "A stop loses kept calls."
    pub fn kept_calls(&self) -> Members {
        match &self.condition {
            Condition::Running(participant) => participant.kept(),
            Condition::Stopped | Condition::Standby(_) => Members::NONE,
        }
    }

    /// Whose acknowledgements are held.
    pub fn acks_held(&self) -> Members {
        match &self.condition {
            Condition::Running(participant) => participant.acks_held(),
            Condition::Stopped | Condition::Standby(_) => Members::NONE,
        }
    }

    /// The word that a running controller has put in this order.
    pub fn proposed(&self) -> Option<Verdict> {
        match &self.condition {
            Condition::Running(participant) => participant.proposed(),
            Condition::Stopped | Condition::Standby(_) => None,
        }
    }

    /// A running controller's part in the ballots: "Those standing by, and all at c = 0, take no part."
    pub fn ballots(&self) -> Option<&Ballots> {
        match &self.condition {
            Condition::Running(participant) => participant.ballots(),
            Condition::Stopped | Condition::Standby(_) => None,
        }
    }

    pub fn is_running(&self) -> bool {
        matches!(self.condition, Condition::Running(_))
    }

    pub fn is_stopped(&self) -> bool {
        matches!(self.condition, Condition::Stopped)
    }

    /// "running and standing-by controllers begin at stage 0, running, without outcome. Stopped ones remain stopped."
    pub fn new_order(&mut self, order: u32) -> Answer {
        self.order = order;
        if !self.is_stopped() {
            let participant = Participant::new(self.group, self.has_ballots, self.id);
            self.condition = Condition::Running(participant);
        }
        Answer::taken()
    }

    pub fn vote(&mut self, willing: bool, target: i32) -> Answer {
        self.while_running(|participant| participant.vote(willing, target))
    }

    pub fn timeout(&mut self) -> Answer {
        self.while_running(Participant::timeout)
    }

    /// Off the bench a message may come that was never read: one whose sheet does not suit its kind is passed over,
    /// since reading would have refused it.
    pub fn receive(&mut self, message: &Message) -> Answer {
        if !self.is_addressee(message) || !message.votes_suit_kind() {
            return Answer::passed_over();
        }
        self.while_running(|participant| {
            participant.receive(message.kind, message.from, message.votes)
        })
    }

    /// Document 02, U14: "lets the owner, running and having put a word, open each of its ballots once an order". Any other
    /// opening is passed over.
    pub fn open_ballot(&mut self, ballot: u8) -> Answer {
        self.while_running(|participant| participant.open_ballot(ballot))
    }

    /// A message of a ballot; one that reading would have refused is passed over.
    pub fn receive_ballot(&mut self, message: &BallotMessage) -> Answer {
        let is_meant = message.order == self.order
            && message.group == self.group
            && message.to == self.id
            && message.from != self.id
            && self.group.has(message.from);
        if !is_meant || !message.suits_kind() {
            return Answer::passed_over();
        }
        self.while_running(|participant| participant.receive_ballot(message))
    }

    /// "Arbiter's word: becomes the outcome if there is none."
    pub fn decide(&mut self, verdict: Verdict) -> Answer {
        match &mut self.condition {
            Condition::Running(_) => self.while_running(|participant| participant.decide(verdict)),
            Condition::Stopped => Answer::passed_over(),
            // "One standing by notes outcomes, sends nothing and never moves."
            Condition::Standby(outcome) => {
                outcome.get_or_insert(verdict);
                Answer::taken()
            }
        }
    }

    /// "Stop ends everything, outcome included, but the gate's position".
    pub fn stop(&mut self) -> Answer {
        if self.is_stopped() {
            return Answer::passed_over();
        }
        self.condition = Condition::Stopped;
        Answer::taken()
    }

    /// "Save makes the card".
    pub fn save(&self) -> Option<Checkpoint> {
        (!self.is_stopped()).then(|| Checkpoint {
            id: self.id,
            group: self.group,
            outcome: self.outcome(),
            order: self.order,
            position: self.position,
        })
    }

    /// "Restore brings a stopped controller to standing by, with the card's outcome if the card is of this order, else
    /// none. The gate's position stays what it is; the card's is not used."
    pub fn restore(&mut self, checkpoint: &Checkpoint) -> Answer {
        if !self.is_stopped() {
            return Answer::passed_over();
        }
        let of_this_order = checkpoint.order == self.order;
        self.condition = Condition::Standby(checkpoint.outcome.filter(|_| of_this_order));
        Answer::taken()
    }

    /// "a controller passes over any of another order, n or f, or meant for another controller"; and any that no rule
    /// sends to it.
    pub fn is_addressee(&self, message: &Message) -> bool {
        message.order == self.order
            && message.group == self.group
            && message.to == self.id
            && self.group.has(message.from)
            && self.group.permits(message.kind, message.from, self.id)
    }

    fn while_running(&mut self, call: impl FnOnce(&mut Participant) -> Answer) -> Answer {
        let Condition::Running(participant) = &mut self.condition else {
            return Answer::passed_over();
        };
        let outcome_before = participant.outcome();
        let answer = call(participant);
        // "Move as outcome sets a running gate's position to its target."
        if outcome_before.is_none() && participant.outcome() == Some(Verdict::Move) {
            self.position = participant.target();
        }
        answer
    }
}
