//! Telegrams of any kind, as they are read.

use super::ballot_message::BallotMessage;
use super::form::Form;
use super::message::Message;

#[derive(Clone, Copy, PartialEq, Eq, Debug)]
pub enum Telegram {
    /// Kinds 1 to 4.
    Votes(Message),
    /// Kinds 5 to 8.
    Ballot(BallotMessage),
}

impl Telegram {
    /// Length and mark tell the form; a kind that does not suit it gets 3.
    pub fn read(bytes: &[u8]) -> Result<Telegram, u8> {
        let form = Form::of_bytes(bytes)?;
        if form.has_ballot() {
            BallotMessage::read(form, bytes).map(Telegram::Ballot)
        } else {
            Message::read(form, bytes).map(Telegram::Votes)
        }
    }

    /// Answers 0, or the question refused; then the buffer is untouched.
    pub fn write(&self, buffer: &mut [u8]) -> u8 {
        match self {
            Telegram::Votes(message) => message.write(buffer),
            Telegram::Ballot(message) => message.write(buffer),
        }
    }

    /// The form in which it is written.
    pub fn form(&self) -> Form {
        match self {
            Telegram::Votes(message) => message.form(),
            Telegram::Ballot(message) => message.form(),
        }
    }
}
