//! Messages of ballots: telegrams of kinds 5 to 8 (document 02, U14).

use super::checkpoint::{outcome_from_number, outcome_number};
use super::envelope::Envelope;
use super::form::Form;
use crate::ballot::BallotKind;
use crate::group::Group;
use crate::questions::{answer, ask};
use crate::vote_set::{Verdict, VoteSet};

/// Its sheet is empty.
#[derive(Clone, Copy, PartialEq, Eq, Debug)]
pub struct BallotMessage {
    pub kind: BallotKind,
    pub group: Group,
    pub from: u8,
    pub to: u8,
    pub order: u32,
    pub ballot: u8,
    /// "ballot last taken (0 none)"
    pub last: u8,
    pub word: Option<Verdict>,
}

impl BallotMessage {
    /// "with empty sheets and four bytes more: ballot, ballot last taken (0 none), word (0 none, 1 Stay, 2 Move), 0". The
    /// form is one with a ballot.
    pub(super) fn read(form: Form, bytes: &[u8]) -> Result<BallotMessage, u8> {
        // "a word above 2, or a kind that does not suit mark and length, gets 3"
        let kind = BallotKind::from_number(bytes[2]).ok_or(3)?;
        ask(3, bytes[7] == 0)?;
        let more = &bytes[form.ballot_at()..];
        let word = outcome_from_number(more[2]).ok_or(3)?;
        ask(3, more[3] == 0)?;
        let envelope = Envelope::read(bytes);
        envelope.ask_form(form)?;
        let Envelope {
            group,
            from,
            to,
            order,
        } = envelope;
        let message = BallotMessage {
            kind,
            group,
            from,
            to,
            order,
            ballot: more[0],
            last: more[1],
            word,
        };
        message.ask_contents(form.votes(bytes))?;
        Ok(message)
    }

    /// The form in which it is written.
    pub fn form(&self) -> Form {
        Form::of(self.group.n, true)
    }

    /// Answers 0, or the question refused; then the buffer is untouched.
    pub fn write(&self, buffer: &mut [u8]) -> u8 {
        answer(self.try_write(buffer))
    }

    fn try_write(&self, buffer: &mut [u8]) -> Result<(), u8> {
        let form = self.form();
        ask(1, buffer.len() == form.length())?;
        self.ask_contents(VoteSet::EMPTY)?;
        self.envelope().write(buffer, form, self.kind.number());
        form.write_votes(buffer, VoteSet::EMPTY);
        let word = outcome_number(self.word);
        buffer[form.ballot_at()..].copy_from_slice(&[self.ballot, self.last, word, 0]);
        Ok(())
    }

    /// Question 10 refuses none of these: they "go between any two".
    fn ask_contents(&self, votes: VoteSet) -> Result<(), u8> {
        self.envelope().ask_contents()?;
        ask(9, votes == VoteSet::EMPTY && self.suits_kind())?;
        // "Refused: 28, a ballot outside 1 to 255"
        ask(28, self.ballot != 0)
    }

    /// 9, but for the sheet.
    pub fn suits_kind(&self) -> bool {
        match self.kind {
            // "Ask has the middle two 0;"
            BallotKind::Ask => self.last == 0 && self.word.is_none(),
            // "a promise has both or neither, last not above its ballot;"
            BallotKind::Promise => {
                (self.last != 0) == self.word.is_some() && self.last <= self.ballot
            }
            // "put and taken have last 0 and a word;"
            BallotKind::Put | BallotKind::Taken => self.last == 0 && self.word.is_some(),
        }
    }

    fn envelope(&self) -> Envelope {
        Envelope {
            group: self.group,
            from: self.from,
            to: self.to,
            order: self.order,
        }
    }
}
