//! The sheets that a controller holds, one by one, as the commands and their answers tell. Nothing here asks the
//! controller: what it holds joined stands apart, and two sheets are compared controller by controller.

use crate::members::Members;
use crate::records::message::MessageKind;
use crate::vote_set::VoteSet;

/// The kind of message that a vote set came in says what it is held as: a vote is on the own sheet.
#[derive(Clone, Copy, Debug)]
struct Held {
    kind: MessageKind,
    from: u8,
    votes: VoteSet,
}

/// A backup's own acknowledgement, and the help sheet that a waiting controller counts as its own answer, have nothing
/// that the own sheet has not; they are not held once more.
#[derive(Clone, Debug, Default)]
pub struct HeldSets(Vec<Held>);

impl HeldSets {
    pub fn keep(&mut self, kind: MessageKind, from: u8, votes: VoteSet) {
        self.0.push(Held { kind, from, votes });
    }

    /// Drops the acknowledgements that the own vote contradicts, and answers their senders.
    pub fn drop_acks_against(&mut self, vote: VoteSet) -> Members {
        let before = self.senders(MessageKind::Ack);
        self.0
            .retain(|held| held.kind != MessageKind::Ack || !differ(held.votes, vote));
        before.difference(self.senders(MessageKind::Ack))
    }

    /// Whose sheets of a kind are held.
    pub fn senders(&self, kind: MessageKind) -> Members {
        let of_kind = self.0.iter().filter(|held| held.kind == kind);
        of_kind.fold(Members::NONE, |set, held| {
            set.union(Members::only(held.from))
        })
    }

    /// The kinds of which one is held that the votes contradict.
    pub fn contradicted_by(&self, votes: VoteSet) -> Vec<MessageKind> {
        let one_of = |kind| {
            let mut of_kind = self.0.iter().filter(move |held| held.kind == kind);
            of_kind.any(|held| differ(held.votes, votes))
        };
        let kinds = MessageKind::ALL.into_iter();
        kinds.filter(|&kind| one_of(kind)).collect()
    }

    /// The vote of one controller as the sheets held have it; willing where none knows it.
    pub fn vote_of(&self, id: u8) -> VoteSet {
        let knowing = self.0.iter().find(|held| held.votes.known.contains(id));
        VoteSet::single(
            id,
            knowing.is_none_or(|held| held.votes.willing.contains(id)),
        )
    }
}

/// "a sheet that has controller 4 willing when another has it unwilling"
fn differ(one: VoteSet, other: VoteSet) -> bool {
    let mut known_to_both = one.known.iter().filter(|&id| other.known.contains(id));
    known_to_both.any(|id| one.willing.contains(id) != other.willing.contains(id))
}
