//! Commands of 24 bytes to one controller.

use crate::ballot::BallotKind;
use crate::controller::{Answer, Controller};
use crate::group::Group;
use crate::members::Members;
use crate::records::ballot_message::BallotMessage;
use crate::records::checkpoint::{outcome_from_number, outcome_number, Checkpoint};
use crate::records::message::{Message, MessageKind};
use crate::records::{read_u32, write_u32};
use crate::vote_set::{Verdict, VoteSet};

pub const LENGTH: usize = 24;

#[derive(Clone, Copy, PartialEq, Eq, Debug)]
pub enum Command {
    Fresh {
        group: Group,
        has_ballots: bool,
        id: u8,
        order: u32,
    },
    NewOrder {
        order: u32,
    },
    Vote {
        willing: bool,
        target: i32,
    },
    Receive(Message),
    Timeout,
    Decide(Verdict),
    Stop,
    Save,
    Restore {
        outcome: Option<Verdict>,
        order: u32,
        position: i32,
    },
    ReceiveBallot(BallotMessage),
    OpenBallot(u8),
}

impl Command {
    /// The command in the bytes, if they are of a listed form.
    pub fn read(bytes: &[u8]) -> Option<Command> {
        if bytes.len() != LENGTH {
            return None;
        }
        let group = Group {
            n: bytes[1],
            f: bytes[2],
        };
        Some(match bytes[0] {
            0 if bytes[8] <= 1 => Command::Fresh {
                group,
                has_ballots: bytes[8] == 1,
                id: bytes[3],
                order: read_u32(bytes, 4),
            },
            1 => Command::NewOrder {
                order: read_u32(bytes, 4),
            },
            2 => Command::Vote {
                willing: bytes[1] == 1,
                target: read_u32(bytes, 4) as i32,
            },
            3 if bytes[1] > 4 => Command::ReceiveBallot(BallotMessage {
                kind: BallotKind::from_number(bytes[1])?,
                group: Group {
                    n: bytes[2],
                    f: bytes[3],
                },
                from: bytes[4],
                to: bytes[5],
                order: read_u32(bytes, 8),
                ballot: bytes[20],
                last: bytes[21],
                word: outcome_from_number(bytes[22])?,
            }),
            3 => Command::Receive(Message {
                kind: MessageKind::from_number(bytes[1])?,
                group: Group {
                    n: bytes[2],
                    f: bytes[3],
                },
                from: bytes[4],
                to: bytes[5],
                order: read_u32(bytes, 8),
                votes: VoteSet {
                    known: Members(read_u32(bytes, 12)),
                    willing: Members(read_u32(bytes, 16)),
                },
            }),
            4 => Command::Timeout,
            5 if bytes[1] == 1 => Command::Decide(Verdict::Move),
            5 => Command::Decide(Verdict::Stay),
            6 => Command::Stop,
            7 => Command::Save,
            8 => Command::Restore {
                outcome: outcome_from_number(bytes[1])?,
                order: read_u32(bytes, 4),
                position: read_u32(bytes, 8) as i32,
            },
            10 => Command::OpenBallot(bytes[1]),
            _ => return None,
        })
    }

    pub fn bytes(&self) -> [u8; LENGTH] {
        let mut bytes = [0; LENGTH];
        match *self {
            Command::Fresh {
                group,
                has_ballots,
                id,
                order,
            } => {
                bytes[..4].copy_from_slice(&[0, group.n, group.f, id]);
                write_u32(&mut bytes, 4, order);
                bytes[8] = u8::from(has_ballots);
            }
            Command::NewOrder { order } => {
                bytes[0] = 1;
                write_u32(&mut bytes, 4, order);
            }
            Command::Vote { willing, target } => {
                bytes[..2].copy_from_slice(&[2, u8::from(willing)]);
                write_u32(&mut bytes, 4, target as u32);
            }
            Command::Receive(m) => {
                let Group { n, f } = m.group;
                bytes[..6].copy_from_slice(&[3, m.kind.number(), n, f, m.from, m.to]);
                write_u32(&mut bytes, 8, m.order);
                write_u32(&mut bytes, 12, m.votes.known.0);
                write_u32(&mut bytes, 16, m.votes.willing.0);
            }
            Command::Timeout => bytes[0] = 4,
            Command::Decide(verdict) => {
                bytes[..2].copy_from_slice(&[5, u8::from(verdict == Verdict::Move)]);
            }
            Command::Stop => bytes[0] = 6,
            Command::Save => bytes[0] = 7,
            Command::Restore {
                outcome,
                order,
                position,
            } => {
                bytes[..2].copy_from_slice(&[8, outcome_number(outcome)]);
                write_u32(&mut bytes, 4, order);
                write_u32(&mut bytes, 8, position as u32);
            }
            Command::ReceiveBallot(m) => {
                let Group { n, f } = m.group;
                bytes[..6].copy_from_slice(&[3, m.kind.number(), n, f, m.from, m.to]);
                write_u32(&mut bytes, 8, m.order);
                bytes[20..23].copy_from_slice(&[m.ballot, m.last, outcome_number(m.word)]);
            }
            Command::OpenBallot(ballot) => bytes[..2].copy_from_slice(&[10, ballot]),
        }
        bytes
    }

    /// Puts the command to the controller; answers also the checkpoint that a save makes.
    pub fn call(&self, controller: &mut Controller) -> (Answer, Option<Checkpoint>) {
        let answer = match *self {
            Command::Fresh {
                group,
                has_ballots,
                id,
                order,
            } => {
                *controller = Controller::of_lock(group, has_ballots, id, order);
                Answer::taken()
            }
            Command::NewOrder { order } => controller.new_order(order),
            Command::Vote { willing, target } => controller.vote(willing, target),
            Command::Receive(message) => controller.receive(&message),
            Command::ReceiveBallot(message) => controller.receive_ballot(&message),
            Command::OpenBallot(ballot) => controller.open_ballot(ballot),
            Command::Timeout => controller.timeout(),
            Command::Decide(verdict) => controller.decide(verdict),
            Command::Stop => controller.stop(),
            Command::Save => match controller.save() {
                None => Answer::passed_over(),
                saved => return (Answer::taken(), saved),
            },
            Command::Restore {
                outcome,
                order,
                position,
            } => controller.restore(&Checkpoint {
                id: controller.id(),
                group: controller.group(),
                outcome,
                order,
                position,
            }),
        };
        (answer, None)
    }
}
