//! Events of a schedule.

use super::message::MessageKind;
use super::{read_u32, write_u32};
use crate::ballot::BallotKind;
use crate::group::Group;
use crate::questions::{answer, ask};
use crate::vote_set::Verdict;

/// A timeout is a "bell" of document 01, a decision the "arbiter's word".
#[derive(Clone, Copy, PartialEq, Eq, Debug)]
pub enum Event {
    /// `ballots` at a lock whose controllers settle the word among themselves (document 02, U14).
    Lock { group: Group, ballots: bool },
    Order { number: u32 },
    Vote { id: u8, willing: bool, target: i32 },
    Deliver { from: u8, to: u8, kind: MessageKind },
    Timeout { id: u8 },
    Decision { id: u8, verdict: Verdict },
    Stop { id: u8 },
    Save { id: u8 },
    Restore { id: u8 },
    /// The delivery of a message of a ballot.
    DeliverBallot { from: u8, to: u8, kind: BallotKind, ballot: u32 },
    OpenBallot { id: u8, ballot: u32 },
    /// Document 02, U11.
    StepBack,
}

/// What an event record holds after its mark.
#[derive(Clone, Copy, PartialEq, Eq, Debug)]
pub struct Fields {
    pub kind: u8,
    pub a: u8,
    pub b: u8,
    pub c: u8,
    pub value: u32,
}

impl Event {
    pub const MARK: [u8; 2] = [0x4C, 0x45];
    pub const LENGTH: usize = 10;

    /// "Event, 10 bytes: 4C 45; kind; a; b; c; value (4)." "Reading an event record puts 1 to 3".
    pub fn read(bytes: &[u8]) -> Result<Event, u8> {
        ask(1, bytes.len() == Self::LENGTH)?;
        ask(2, bytes[..2] == Self::MARK)?;
        Event::from_fields(Fields {
            kind: bytes[2],
            a: bytes[3],
            b: bytes[4],
            c: bytes[5],
            value: read_u32(bytes, 6),
        })
        .ok_or(3)
    }

    /// Answers 0, or the question refused; then the buffer is untouched.
    pub fn write(&self, buffer: &mut [u8]) -> u8 {
        answer(self.try_write(buffer))
    }

    fn try_write(&self, buffer: &mut [u8]) -> Result<(), u8> {
        ask(1, buffer.len() == Self::LENGTH)?;
        let Fields {
            kind,
            a,
            b,
            c,
            value,
        } = self.fields();
        buffer[..2].copy_from_slice(&Self::MARK);
        buffer[2..6].copy_from_slice(&[kind, a, b, c]);
        write_u32(buffer, 6, value);
        Ok(())
    }

    /// The event with those fields, if "kind, outcome and flags [are] listed values, unused fields 0".
    pub fn from_fields(fields: Fields) -> Option<Event> {
        let Fields {
            kind,
            a,
            b,
            c,
            value,
        } = fields;
        Some(match (kind, a, b, c, value) {
            // "0 lock (a = n, b = f)"; U14: "Its lock event has c = 1"
            (0, n, f, 0 | 1, 0) => Event::Lock {
                group: Group { n, f },
                ballots: c == 1,
            },
            // "1 order (value = number)"
            (1, 0, 0, 0, number) => Event::Order { number },
            // "2 vote (a, b = 1 willing or 0, value = target, two's complement)"
            (2, id, 0 | 1, 0, target) => Event::Vote {
                id,
                willing: b == 1,
                target: target as i32,
            },
            // "3 deliver (a = from, b = to, c = telegram kind)"
            (3, from, to, 1..=4, 0) => Event::Deliver {
                from,
                to,
                kind: MessageKind::from_number(c)?,
            },
            // "A delivery of these kinds names the ballot in its value"
            (3, from, to, 5..=8, ballot) => Event::DeliverBallot {
                from,
                to,
                kind: BallotKind::from_number(c)?,
                ballot,
            },
            // "4 bell (a)"
            (4, id, 0, 0, 0) => Event::Timeout { id },
            // "5 arbiter (a, b = 0 Stay or 1 Move)"
            (5, id, 0, 0, 0) => Event::Decision {
                id,
                verdict: Verdict::Stay,
            },
            (5, id, 1, 0, 0) => Event::Decision {
                id,
                verdict: Verdict::Move,
            },
            // "6 stop (a); 7 save (a); 8 restore (a)"
            (6, id, 0, 0, 0) => Event::Stop { id },
            (7, id, 0, 0, 0) => Event::Save { id },
            (8, id, 0, 0, 0) => Event::Restore { id },
            // "Event kind 9, all fields 0"
            (9, 0, 0, 0, 0) => Event::StepBack,
            // "Event kind 10 (a, value = b ..)"
            (10, id, 0, 0, ballot) => Event::OpenBallot { id, ballot },
            _ => return None,
        })
    }

    pub fn fields(&self) -> Fields {
        let (kind, a, b, c, value) = match *self {
            Event::Lock { group, ballots } => (0, group.n, group.f, u8::from(ballots), 0),
            Event::Order { number } => (1, 0, 0, 0, number),
            Event::Vote {
                id,
                willing,
                target,
            } => (2, id, u8::from(willing), 0, target as u32),
            Event::Deliver { from, to, kind } => (3, from, to, kind.number(), 0),
            Event::Timeout { id } => (4, id, 0, 0, 0),
            Event::Decision { id, verdict } => (5, id, u8::from(verdict == Verdict::Move), 0, 0),
            Event::Stop { id } => (6, id, 0, 0, 0),
            Event::Save { id } => (7, id, 0, 0, 0),
            Event::Restore { id } => (8, id, 0, 0, 0),
            Event::DeliverBallot {
                from,
                to,
                kind,
                ballot,
            } => (3, from, to, kind.number(), ballot),
            Event::OpenBallot { id, ballot } => (10, id, 0, 0, ballot),
            Event::StepBack => (9, 0, 0, 0, 0),
        };
        Fields {
            kind,
            a,
            b,
            c,
            value,
        }
    }
}
