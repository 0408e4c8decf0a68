//! Frames of 40 bytes: one record to read or to write, with the length of the slice or buffer.

use crate::ballot::BallotKind;
use crate::group::Group;
use crate::members::Members;
use crate::records::ballot_message::BallotMessage;
use crate::records::checkpoint::{outcome_from_number, outcome_number, Checkpoint};
use crate::records::event::{Event, Fields};
use crate::records::message::{Message, MessageKind};
use crate::records::telegram::Telegram;
use crate::records::{read_u32, write_u32};
use crate::vote_set::VoteSet;
use std::fmt::Write;

pub const LENGTH: usize = 40;
/// The longest slice or buffer that a frame names.
pub const MAX_SLICE: usize = 32;
/// What a buffer holds before it is written.
const FILLER: u8 = 0xA5;

pub const READ_MESSAGE: u8 = 0;
pub const READ_CHECKPOINT: u8 = 1;
pub const READ_EVENT: u8 = 2;
pub const WRITE_MESSAGE: u8 = 3;
pub const WRITE_CHECKPOINT: u8 = 4;
pub const WRITE_EVENT: u8 = 5;

/// The line printed for a frame; an error where a frame is not of the listed form.
pub fn line(frame: &[u8]) -> Result<String, &'static str> {
    if frame.len() != LENGTH {
        return Err("short frame");
    }
    let length = usize::from(frame[1]);
    if length > MAX_SLICE {
        return Err("length above 32");
    }
    let slice = &frame[2..2 + length];
    let fields = &frame[2..];
    Ok(match frame[0] {
        READ_MESSAGE => read_line(Telegram::read(slice).map(telegram_text)),
        READ_CHECKPOINT => read_line(Checkpoint::read(slice).map(checkpoint_text)),
        READ_EVENT => read_line(Event::read(slice).map(event_text)),
        WRITE_MESSAGE => {
            let telegram = telegram_fields(fields).ok_or("unlisted telegram")?;
            write_line(length, |buffer| telegram.write(buffer))
        }
        WRITE_CHECKPOINT => {
            let checkpoint = checkpoint_fields(fields).ok_or("unlisted outcome")?;
            write_line(length, |buffer| checkpoint.write(buffer))
        }
        WRITE_EVENT => {
            let event = event_fields(fields).ok_or("unlisted event")?;
            write_line(length, |buffer| event.write(buffer))
        }
        _ => return Err("unlisted frame"),
    })
}

/// A frame that reads the slice.
pub fn reading(what: u8, slice: &[u8]) -> [u8; LENGTH] {
    let mut frame = [0; LENGTH];
    frame[0] = what;
    frame[1] = slice.len() as u8;
    frame[2..2 + slice.len()].copy_from_slice(slice);
    frame
}

pub fn writing_telegram(length: u8, telegram: &Telegram) -> [u8; LENGTH] {
    match telegram {
        Telegram::Votes(message) => writing_message(length, message),
        Telegram::Ballot(message) => writing_ballot_message(length, message),
    }
}

fn writing_message(length: u8, message: &Message) -> [u8; LENGTH] {
    let Message {
        kind,
        group,
        from,
        to,
        order,
        votes,
    } = *message;
    let mut frame = [0; LENGTH];
    frame[..2].copy_from_slice(&[WRITE_MESSAGE, length]);
    frame[2..7].copy_from_slice(&[kind.number(), group.n, group.f, from, to]);
    write_u32(&mut frame, 7, order);
    write_u32(&mut frame, 11, votes.known.0);
    write_u32(&mut frame, 15, votes.willing.0);
    frame
}

fn writing_ballot_message(length: u8, message: &BallotMessage) -> [u8; LENGTH] {
    let BallotMessage {
        kind,
        group,
        from,
        to,
        order,
        ballot,
        last,
        word,
    } = *message;
    let mut frame = [0; LENGTH];
    frame[..2].copy_from_slice(&[WRITE_MESSAGE, length]);
    frame[2..7].copy_from_slice(&[kind.number(), group.n, group.f, from, to]);
    write_u32(&mut frame, 7, order);
    frame[19..22].copy_from_slice(&[ballot, last, outcome_number(word)]);
    frame
}

pub fn writing_checkpoint(length: u8, checkpoint: &Checkpoint) -> [u8; LENGTH] {
    let Checkpoint {
        id,
        group,
        outcome,
        order,
        position,
    } = *checkpoint;
    let mut frame = [0; LENGTH];
    let outcome = outcome_number(outcome);
    frame[..6].copy_from_slice(&[WRITE_CHECKPOINT, length, id, group.n, group.f, outcome]);
    write_u32(&mut frame, 6, order);
    write_u32(&mut frame, 10, position as u32);
    frame
}

pub fn writing_event(length: u8, event: &Event) -> [u8; LENGTH] {
    let Fields {
        kind,
        a,
        b,
        c,
        value,
    } = event.fields();
    let mut frame = [0; LENGTH];
    frame[..6].copy_from_slice(&[WRITE_EVENT, length, kind, a, b, c]);
    write_u32(&mut frame, 6, value);
    frame
}

/// The telegram that a frame names; none where there is no such value: an unlisted kind or word, a sheet with a ballot, or a
/// ballot without one of its kinds.
pub(crate) fn telegram_fields(fields: &[u8]) -> Option<Telegram> {
    let group = Group {
        n: fields[1],
        f: fields[2],
    };
    let (from, to, order) = (fields[3], fields[4], read_u32(fields, 5));
    let votes = VoteSet {
        known: Members(read_u32(fields, 9)),
        willing: Members(read_u32(fields, 13)),
    };
    let [ballot, last, word] = [fields[17], fields[18], fields[19]];
    match (MessageKind::from_number(fields[0]), BallotKind::from_number(fields[0])) {
        (Some(kind), _) if [ballot, last, word] == [0; 3] => Some(Telegram::Votes(Message {
            kind,
            group,
            from,
            to,
            order,
            votes,
        })),
        (_, Some(kind)) if votes == VoteSet::EMPTY => Some(Telegram::Ballot(BallotMessage {
            kind,
            group,
            from,
            to,
            order,
            ballot,
            last,
            word: outcome_from_number(word)?,
        })),
        _ => None,
    }
}

fn checkpoint_fields(fields: &[u8]) -> Option<Checkpoint> {
    Some(Checkpoint {
        id: fields[0],
        group: Group {
            n: fields[1],
            f: fields[2],
        },
        outcome: outcome_from_number(fields[3])?,
        order: read_u32(fields, 4),
        position: read_u32(fields, 8) as i32,
    })
}

fn event_fields(fields: &[u8]) -> Option<Event> {
    Event::from_fields(Fields {
        kind: fields[0],
        a: fields[1],
        b: fields[2],
        c: fields[3],
        value: read_u32(fields, 4),
    })
}

fn read_line(read: Result<String, u8>) -> String {
    match read {
        Ok(text) => format!("= {text}"),
        Err(number) => format!("R {number}"),
    }
}

fn write_line(length: usize, write: impl FnOnce(&mut [u8]) -> u8) -> String {
    let mut buffer = vec![FILLER; length];
    let mut text = format!("W {} ", write(&mut buffer));
    for byte in buffer {
        let _ = write!(text, "{byte:02x}");
    }
    text
}

fn telegram_text(telegram: Telegram) -> String {
    match telegram {
        Telegram::Votes(message) => message_text(message),
        Telegram::Ballot(message) => ballot_message_text(message),
    }
}

fn message_text(message: Message) -> String {
    let Message {
        kind,
        group,
        from,
        to,
        order,
        votes,
    } = message;
    let (kind, n, f) = (kind.number(), group.n, group.f);
    let (known, willing) = (votes.known.0, votes.willing.0);
    format!("{kind} {n} {f} {from} {to} {order} {known} {willing}")
}

fn ballot_message_text(message: BallotMessage) -> String {
    let BallotMessage {
        kind,
        group,
        from,
        to,
        order,
        ballot,
        last,
        word,
    } = message;
    let (kind, n, f) = (kind.number(), group.n, group.f);
    let word = outcome_number(word);
    format!("{kind} {n} {f} {from} {to} {order} 0 0 {ballot} {last} {word}")
}

fn checkpoint_text(checkpoint: Checkpoint) -> String {
    let Checkpoint {
        id,
        group,
        outcome,
        order,
        position,
    } = checkpoint;
    let (n, f, outcome) = (group.n, group.f, outcome_number(outcome));
    format!("{id} {n} {f} {outcome} {order} {}", position as u32)
}

fn event_text(event: Event) -> String {
    let Fields {
        kind,
        a,
        b,
        c,
        value,
    } = event.fields();
    format!("{kind} {a} {b} {c} {value}")
}
