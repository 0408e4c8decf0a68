//! Messages between controllers that carry votes: the "telegrams" of document 01.

use super::envelope::Envelope;
pub use super::form::Form;
use crate::group::Group;
use crate::members::Members;
pub use crate::message_kind::MessageKind;
use crate::questions::{answer, ask};
use crate::vote_set::VoteSet;

#[derive(Clone, Copy, PartialEq, Eq, Debug)]
pub struct Message {
    pub kind: MessageKind,
    pub group: Group,
    pub from: u8,
    pub to: u8,
    pub order: u32,
    pub votes: VoteSet,
}

impl Message {
    /// "Telegram, 16 bytes: 4C 4B; kind ..; n; f; from; to; 0; order (4); known (2); willing (2)." The form is one
    /// without a ballot.
    pub(super) fn read(form: Form, bytes: &[u8]) -> Result<Message, u8> {
        let kind = MessageKind::from_number(bytes[2]).ok_or(3)?;
        ask(3, bytes[7] == 0)?;
        let envelope = Envelope::read(bytes);
        envelope.ask_form(form)?;
        let Envelope {
            group,
            from,
            to,
            order,
        } = envelope;
        let message = Message {
            kind,
            group,
            from,
            to,
            order,
            votes: form.votes(bytes),
        };
        message.ask_contents()?;
        Ok(message)
    }

    /// The form in which it is written.
    pub fn form(&self) -> Form {
        Form::of(self.group.n, false)
    }

    /// Answers 0, or the question refused; then the buffer is untouched.
    pub fn write(&self, buffer: &mut [u8]) -> u8 {
        answer(self.try_write(buffer))
    }

    fn try_write(&self, buffer: &mut [u8]) -> Result<(), u8> {
        let form = self.form();
        ask(1, buffer.len() == form.length())?;
        self.ask_contents()?;
        self.envelope().write(buffer, form, self.kind.number());
        form.write_votes(buffer, self.votes);
        Ok(())
    }

    fn ask_contents(&self) -> Result<(), u8> {
        self.envelope().ask_contents()?;
        ask(9, self.votes_suit_kind())?;
        ask(10, self.group.permits(self.kind, self.from, self.to))
    }

    fn envelope(&self) -> Envelope {
        Envelope {
            group: self.group,
            from: self.from,
            to: self.to,
            order: self.order,
        }
    }

    /// 9. "Does the sheet suit the kind?"
    pub fn votes_suit_kind(&self) -> bool {
        let VoteSet { known, willing } = self.votes;
        let sender = Members::only(self.from);
        // "No bit above n; willing within known;"
        let in_group = self.group.everyone().includes(known.union(willing));
        let suits = match self.kind {
            // "a vote knows just its sender;"
            MessageKind::Vote => known == sender,
            // "a help call knows nobody;"
            MessageKind::Help => known.is_empty(),
            // "kinds 2 and 4 know at least their sender."
            MessageKind::Ack | MessageKind::Helped => known.includes(sender),
        };
        in_group && known.includes(willing) && suits
    }
}
