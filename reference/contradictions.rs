//! What sequences of commands meet of sheets that contradict each other (document 02, U7), with a test of every answer to a
//! message that is written apart from the controller's own.

mod faults;
mod held;

use crate::command::Command;
use crate::controller::{Answer, Controller, Reception};
use crate::members::Members;
use crate::records::message::{Message, MessageKind};
use crate::vote_set::VoteSet;
use faults::FAULTS;
use held::HeldSets;

#[derive(Clone, Debug, Default)]
pub struct Contradictions {
    order: OrderSoFar,
    /// Refusals by 24, by kind of message and by the one kind that it contradicts, a vote standing for the own sheet.
    refused: [[u64; 4]; 4],
    /// Refusals by 24 of a message that contradicts several kinds.
    refused_by_several: [u64; 4],
    /// Of the messages refused by 24, those whose sender was then received.
    received_after_all: [u64; 4],
    /// Messages that contradict one held and are passed over anyway, by kind.
    untested: [u64; 4],
    /// The same of messages that are not meant for the controller.
    untested_misled: u64,
    /// Messages passed over for their sheet alone, by fault.
    unsuited: [u64; FAULTS.len()],
    /// Those of them that contradict one held.
    unsuited_contradicting: u64,
    dropped: u64,
    received_again: u64,
}

/// One controller since its order began.
#[derive(Clone, Debug, Default)]
struct OrderSoFar {
    held: HeldSets,
    /// The senders refused by 24, by kind, and not received since.
    refused: [Members; 4],
    /// The senders whose acknowledgement the own vote dropped, and not received since.
    dropped: Members,
}

/// The kinds held that a message of a kind can contradict. A vote is passed over from stage 2 on, and help answers are held at
/// stage 3 alone. A help call knows nobody and so contradicts nothing; with a sheet it does not suit its kind.
fn can_contradict(kind: MessageKind) -> &'static [MessageKind] {
    match kind {
        MessageKind::Vote => &[MessageKind::Vote, MessageKind::Ack],
        MessageKind::Ack | MessageKind::Helped => {
            &[MessageKind::Vote, MessageKind::Ack, MessageKind::Helped]
        }
        MessageKind::Help => &[],
    }
}

impl Contradictions {
    /// Counts a command that was put to a controller. An error if the answer is not what the sheets held ask for.
    pub fn add(
        &mut self,
        command: &Command,
        before: &Controller,
        after: &Controller,
        answer: &Answer,
    ) -> Result<(), String> {
        // "takes the telegram as not received"
        if !answer.is_taken() && (after != before || !answer.is_silent()) {
            return Err(format!("{command:?} was not taken and did something"));
        }
        match command {
            Command::Fresh { .. } | Command::NewOrder { .. } | Command::Stop => {
                self.order = OrderSoFar::default();
                Ok(())
            }
            Command::Vote { willing, .. } if answer.is_taken() => self.add_vote(*willing, after),
            Command::Receive(message) => self.add_message(message, before, answer.reception),
            _ => Ok(()),
        }
    }

    /// "takes the telegram as not received, also one already held that its own vote contradicts"
    fn add_vote(&mut self, willing: bool, after: &Controller) -> Result<(), String> {
        let OrderSoFar { held, dropped, .. } = &mut self.order;
        let vote = VoteSet::single(after.id(), willing);
        *dropped = held.drop_acks_against(vote);
        held.keep(MessageKind::Vote, after.id(), vote);
        self.dropped += u64::from(dropped.count());
        let (kept, right) = (after.acks_held(), held.senders(MessageKind::Ack));
        if kept == right {
            return Ok(());
        }
        Err(format!(
            "{vote:?}: acknowledgements of {kept:?} are kept, should be {right:?}"
        ))
    }

    fn add_message(
        &mut self,
        message: &Message,
        before: &Controller,
        reception: Reception,
    ) -> Result<(), String> {
        let contradicted = self.order.held.contradicted_by(message.votes);
        let meant = before.is_addressee(message);
        let suits = meant && !FAULTS.iter().any(|fault| (fault.is_in)(message));
        // "One that is passed over anyway" is passed over with a sheet that contradicts nothing, too.
        let applies = meant && self.is_taken_in_agreement(message, before);
        let right = match (applies && suits, contradicted.is_empty()) {
            (false, _) => Reception::PassedOver,
            (true, true) => Reception::Taken,
            (true, false) => Reception::Contradicted,
        };
        if reception != right {
            return Err(format!("{message:?}: {reception:?}, should be {right:?}"));
        }
        match right {
            Reception::Taken => self.add_taken(message),
            Reception::Contradicted => return self.add_refused(message, &contradicted),
            Reception::PassedOver if applies => self.add_unsuited(message, &contradicted),
            Reception::PassedOver if contradicted.is_empty() => {}
            Reception::PassedOver if suits => self.untested[message.kind.index()] += 1,
            Reception::PassedOver => self.untested_misled += u64::from(!meant),
        }
        Ok(())
    }

    /// Whether the message would be taken if it had a sheet that suits its kind and agrees with all that is held.
    fn is_taken_in_agreement(&self, message: &Message, before: &Controller) -> bool {
        let votes = match message.kind {
            MessageKind::Help => VoteSet::EMPTY,
            _ => self.order.held.vote_of(message.from),
        };
        let answer = before.clone().receive(&Message { votes, ..*message });
        answer.is_taken()
    }

    fn add_taken(&mut self, message: &Message) {
        let Message {
            kind, from, votes, ..
        } = *message;
        let order = &mut self.order;
        order.held.keep(kind, from, votes);
        let refused = &mut order.refused[kind.index()];
        self.received_after_all[kind.index()] += u64::from(refused.contains(from));
        *refused = refused.without(from);
        if kind == MessageKind::Ack {
            self.received_again += u64::from(order.dropped.contains(from));
            order.dropped = order.dropped.without(from);
        }
    }

    fn add_refused(
        &mut self,
        message: &Message,
        contradicted: &[MessageKind],
    ) -> Result<(), String> {
        let Message { kind, from, .. } = *message;
        let possible = can_contradict(kind);
        if let Some(held) = contradicted.iter().find(|held| !possible.contains(held)) {
            return Err(format!("{message:?} cannot contradict a {held:?}"));
        }
        match contradicted {
            [one] => self.refused[kind.index()][one.index()] += 1,
            _ => self.refused_by_several[kind.index()] += 1,
        }
        let refused = &mut self.order.refused[kind.index()];
        *refused = refused.union(Members::only(from));
        Ok(())
    }

    fn add_unsuited(&mut self, message: &Message, contradicted: &[MessageKind]) {
        for (count, fault) in self.unsuited.iter_mut().zip(&FAULTS) {
            *count += u64::from((fault.is_in)(message));
        }
        self.unsuited_contradicting += u64::from(!contradicted.is_empty());
    }

    /// Name and count of everything that the sequences should meet.
    pub fn rows(&self) -> Vec<(String, u64)> {
        let mut rows = Vec::new();
        for kind in [MessageKind::Vote, MessageKind::Ack, MessageKind::Helped] {
            let index = kind.index();
            let name = ["votes", "acknowledgements", "help calls", "help answers"][index];
            for held in can_contradict(kind) {
                let what = [
                    "the own sheet",
                    "acknowledgements",
                    "help calls",
                    "help answers",
                ][held.index()];
                rows.push((
                    format!("{name} refused by 24, against {what} alone"),
                    self.refused[index][held.index()],
                ));
            }
            let others = [
                (
                    "refused by 24, against several of these",
                    self.refused_by_several[index],
                ),
                (
                    "received after a 24 of the same sender",
                    self.received_after_all[index],
                ),
                (
                    "passed over anyway though they contradict one held",
                    self.untested[index],
                ),
            ];
            rows.extend(others.map(|(what, count)| (format!("{name} {what}"), count)));
        }
        let faults = FAULTS.iter().zip(self.unsuited);
        rows.extend(
            faults.map(|(fault, count)| (format!("{}, passed over for it", fault.name), count)),
        );
        let others = [
            (
                "messages passed over for their sheet that contradict one held",
                self.unsuited_contradicting,
            ),
            (
                "messages not meant for the controller that contradict one held",
                self.untested_misled,
            ),
            ("acknowledgements dropped at the own vote", self.dropped),
            ("senders of these received again", self.received_again),
        ];
        rows.extend(others.map(|(name, count)| (name.to_string(), count)));
        rows
    }

    /// All refusals by 24.
    pub fn refusals(&self) -> u64 {
        let one = self.refused.iter().flatten();
        one.chain(&self.refused_by_several).sum()
    }
}
