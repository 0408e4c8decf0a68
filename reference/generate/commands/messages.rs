//! The messages that come to the controller of a script.

use super::{Goal, Script};
use crate::command::Command;
use crate::generate::choices;
use crate::group::Group;
use crate::members::Members;
use crate::records::message::{Message, MessageKind};
use crate::vote_set::VoteSet;

impl Script<'_> {
    /// A message of one not heard yet, with votes as the plan has them.
    pub fn planned_message(&mut self, kind: MessageKind) -> Option<Command> {
        let id = self.controller.id();
        let heard = self.heard[kind.index()];
        let missing = |&from: &u8| self.group().permits(kind, from, id) && !heard.contains(from);
        let senders: Vec<u8> = self.group().ids().filter(missing).collect();
        if senders.is_empty() {
            return None;
        }
        let from = self.rng.pick(&senders);
        self.heard[kind.index()] = heard.union(Members::only(from));
        let votes = self.planned_votes(kind, from);
        Some(Command::Receive(self.message(kind, from, votes)))
    }

    fn planned_votes(&mut self, kind: MessageKind, from: u8) -> VoteSet {
        let group = self.group();
        let mut votes = choices::votes(self.rng, group, kind, from);
        let complete = match self.plan.goal {
            Goal::Outcome => self.rng.chance(40, 41),
            Goal::Proposal | Goal::Waiting => self.rng.chance(1, 2),
        };
        if complete && matches!(kind, MessageKind::Ack | MessageKind::Helped) {
            votes.known = group.everyone();
        }
        // What the second backup acknowledges: the backups, sometimes but for one.
        if kind == MessageKind::Ack && from == group.second_backup() && self.rng.chance(1, 2) {
            let lost = self.rng.between(1, group.f.into()) as u8;
            let backups = match self.rng.below(8) {
                0 => group.backups().without(lost),
                _ => group.backups(),
            };
            votes.known = backups.union(Members::only(from));
        }
        votes.willing = votes.known.difference(self.plan.unwilling);
        if self.rng.chance(self.plan.contrary, 100) {
            let known: Vec<u8> = votes.known.iter().collect();
            if !known.is_empty() {
                votes.willing.0 ^= Members::only(self.rng.pick(&known)).0;
            }
        }
        votes
    }

    /// A message that may come, in turn or not, with any votes.
    pub fn any_message(&mut self) -> Command {
        match self.permitted_message() {
            Some(message) => Command::Receive(message),
            None => self.misled_message(),
        }
    }

    /// A message of any kind that may travel to this controller, if there is a sender for it.
    fn permitted_message(&mut self) -> Option<Message> {
        let kind = choices::kind(self.rng);
        let id = self.controller.id();
        let permitted = |&from: &u8| self.group().permits(kind, from, id);
        let senders: Vec<u8> = self.group().ids().filter(permitted).collect();
        if senders.is_empty() {
            return None;
        }
        let from = self.rng.pick(&senders);
        let votes = choices::votes(self.rng, self.group(), kind, from);
        Some(self.message(kind, from, votes))
    }

    /// The last message once more, or its contradiction.
    pub fn repeated_message(&mut self) -> Command {
        let Some(mut message) = self.last_message else {
            return self.any_message();
        };
        if self.rng.chance(1, 2) {
            message.votes.willing = message.votes.known.difference(message.votes.willing);
        }
        Command::Receive(message)
    }

    /// A message of another order, group, receiver or way, or with votes that do not suit its kind.
    pub fn misled_message(&mut self) -> Command {
        let group = self.group();
        let id = self.controller.id();
        let kind = choices::kind(self.rng);
        let permitted = self.permitted_message();
        let message = match (self.rng.below(9), permitted) {
            (0, Some(message)) => {
                let Message { order, .. } = message;
                let near = [order.wrapping_add(1), order.wrapping_sub(1)];
                let order = self.rng.pick(&near).max(1);
                Message { order, ..message }
            }
            (1, Some(message)) => {
                let to = choices::id(self.rng, group);
                Message { to, ..message }
            }
            (2, _) => self.message_of_other_group(kind),
            (3, _) => self.message(MessageKind::Help, id, VoteSet::EMPTY),
            (4, _) => {
                let from = choices::bad_id(self.rng, group);
                self.message(MessageKind::Help, from, VoteSet::EMPTY)
            }
            (5..=7, Some(message)) => Message {
                votes: choices::bad_votes(self.rng, group, message.kind, message.from, 32),
                ..message
            },
            // Any other controller, also where the kind may not travel so.
            _ => {
                let others: Vec<u8> = group.ids().filter(|&other| other != id).collect();
                let from = self.rng.pick(&others);
                let votes = choices::votes(self.rng, group, kind, from);
                self.message(kind, from, votes)
            }
        };
        Command::Receive(message)
    }

    fn message_of_other_group(&mut self, kind: MessageKind) -> Message {
        let Group { n, f } = self.group();
        let near = [
            Group { n: n + 1, f },
            Group { n: n - 1, f },
            Group { n, f: f + 1 },
            Group { n, f: f - 1 },
        ];
        let groups: Vec<Group> = near.into_iter().filter(|group| group.in_range()).collect();
        let group = if groups.is_empty() {
            self.group()
        } else {
            self.rng.pick(&groups)
        };
        let (from, to) = choices::route(self.rng, group, kind, true);
        let votes = choices::votes(self.rng, group, kind, from);
        let mut message = self.message(kind, from, votes);
        message.group = group;
        let id = self.controller.id();
        let meant = from != id && group.has(id) && group.permits(kind, from, id);
        message.to = if meant { id } else { to };
        message
    }

    /// A message of this order and group to this controller.
    fn message(&self, kind: MessageKind, from: u8, votes: VoteSet) -> Message {
        Message {
            kind,
            group: self.group(),
            from,
            to: self.controller.id(),
            order: self.controller.order(),
            votes,
        }
    }
}
