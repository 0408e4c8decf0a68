//! Record frames, valid and refused by each question, alone and two at a time.

use super::choices;
use crate::frame;
use crate::group::{Group, MAX_CONTROLLERS};
use crate::records::checkpoint::{outcome_number, Checkpoint};
use crate::records::event::{Event, Fields};
use crate::records::message::{Form, Message};
use crate::records::telegram::Telegram;
use crate::records::write_u32;
use crate::rng::Rng;

pub(super) type Frame = [u8; frame::LENGTH];

/// A telegram, to be read or to be written.
pub fn telegram(rng: &mut Rng) -> Frame {
    match rng.below(2) {
        0 => read_message(rng),
        _ => write_message(rng),
    }
}

pub fn frame(rng: &mut Rng) -> Frame {
    match rng.below(6) {
        0 => read_message(rng),
        1 => read_checkpoint(rng),
        2 => read_event(rng),
        3 => write_message(rng),
        4 => write_checkpoint(rng),
        _ => write_event(rng),
    }
}

/// None, one or two of the questions, to be answered with no.
pub(super) fn broken_questions(rng: &mut Rng, questions: &[u8]) -> Vec<u8> {
    let count = rng.pick(&[0, 1, 1, 2]);
    (0..count).map(|_| rng.pick(questions)).collect()
}

fn read_message(rng: &mut Rng) -> Frame {
    let broken = broken_questions(rng, &[1, 2, 3, 4, 7, 8, 9, 9, 10, 10]);
    let message = message(rng, &broken, true);
    let mut form = message.form();
    if broken.contains(&4) && message.group.in_range() {
        form = form.of_other_width();
    }
    let mut bytes = message_bytes(&message, form);
    if broken.contains(&3) {
        match rng.below(2) {
            0 => bytes[2] = rng.pick(&[0, 5, 6, 128, 255]),
            _ => bytes[7] = rng.pick(&[1, 2, 128, 255]),
        }
    }
    if broken.contains(&2) {
        spoil_mark(rng, &mut bytes);
    }
    reading(rng, frame::READ_MESSAGE, &bytes, &broken)
}

fn read_checkpoint(rng: &mut Rng) -> Frame {
    let broken = broken_questions(rng, &[1, 2, 3, 4, 7, 8, 11]);
    let checkpoint = checkpoint(rng, &broken);
    let mut bytes = checkpoint_bytes(&checkpoint);
    if broken.contains(&3) {
        bytes[5] = rng.pick(&[3, 4, 128, 255]);
    }
    if broken.contains(&2) {
        spoil_mark(rng, &mut bytes);
    }
    reading(rng, frame::READ_CHECKPOINT, &bytes, &broken)
}

fn read_event(rng: &mut Rng) -> Frame {
    let broken = broken_questions(rng, &[1, 2, 3, 3]);
    let mut fields = event(rng).fields();
    if broken.contains(&3) {
        fields = unlisted_event(rng);
    }
    let mut bytes = event_bytes(fields);
    if broken.contains(&2) {
        spoil_mark(rng, &mut bytes);
    }
    reading(rng, frame::READ_EVENT, &bytes, &broken)
}

fn write_message(rng: &mut Rng) -> Frame {
    let broken = broken_questions(rng, &[1, 4, 7, 8, 9, 9, 10, 10]);
    let message = message(rng, &broken, false);
    let length = length(rng, message.form().length(), &broken);
    frame::writing_telegram(length as u8, &Telegram::Votes(message))
}

fn write_checkpoint(rng: &mut Rng) -> Frame {
    let broken = broken_questions(rng, &[1, 4, 7, 8, 11]);
    let checkpoint = checkpoint(rng, &broken);
    let length = length(rng, Checkpoint::LENGTH, &broken);
    frame::writing_checkpoint(length as u8, &checkpoint)
}

fn write_event(rng: &mut Rng) -> Frame {
    let broken = broken_questions(rng, &[1]);
    let length = length(rng, Event::LENGTH, &broken);
    frame::writing_event(length as u8, &event(rng))
}

/// Two broken fours may meet in a message that is to be read, whose form can be the wrong one for its n.
fn message(rng: &mut Rng, broken: &[u8], read: bool) -> Message {
    let group = choices::group(rng, MAX_CONTROLLERS);
    let width = if read && !Form::of(group.n, false).is_long() {
        16
    } else {
        32
    };
    let kind = choices::kind(rng);
    let (from, to) = choices::route(rng, group, kind, !broken.contains(&10));
    let votes = if broken.contains(&9) {
        choices::bad_votes(rng, group, kind, from, width)
    } else {
        choices::votes(rng, group, kind, from)
    };
    let mut message = Message {
        kind,
        group,
        from,
        to,
        order: order(rng, broken),
        votes,
    };
    if broken.contains(&7) {
        match rng.below(3) {
            0 => message.from = choices::bad_id(rng, group),
            1 => message.to = choices::bad_id(rng, group),
            _ => message.to = from,
        }
    }
    if broken.contains(&4) && !(read && rng.chance(1, 2)) {
        message.group = choices::bad_group(rng);
    }
    message
}

fn checkpoint(rng: &mut Rng, broken: &[u8]) -> Checkpoint {
    let group = choices::group(rng, MAX_CONTROLLERS);
    let mut checkpoint = Checkpoint {
        id: choices::id(rng, group),
        group,
        outcome: choices::outcome(rng),
        order: order(rng, broken),
        position: choices::position(rng),
    };
    if broken.contains(&11) {
        checkpoint.position = choices::bad_position(rng);
    }
    if broken.contains(&7) {
        checkpoint.id = choices::bad_id(rng, group);
    }
    if broken.contains(&4) {
        checkpoint.group = choices::bad_group(rng);
    }
    checkpoint
}

pub(super) fn order(rng: &mut Rng, broken: &[u8]) -> u32 {
    if broken.contains(&8) {
        0
    } else {
        choices::order(rng)
    }
}

/// An event that reading lets through; what only the bench asks may be anything.
fn event(rng: &mut Rng) -> Event {
    let id = rng.pick(&[0, 1, 2, 16, 17, 32, 33, 255]);
    let other = rng.pick(&[0, 1, 3, 16, 32, 255]);
    match rng.below(10) {
        0 => Event::Lock {
            group: Group { n: id, f: other },
            ballots: false,
        },
        1 => Event::Order {
            number: rng.pick(&[0, 1, 0x8000_0000, u32::MAX]),
        },
        2 => Event::Vote {
            id,
            willing: rng.chance(1, 2),
            target: rng.word() as i32,
        },
        3 => Event::Deliver {
            from: id,
            to: other,
            kind: choices::kind(rng),
        },
        4 => Event::Timeout { id },
        5 => Event::Decision {
            id,
            verdict: choices::verdict(rng),
        },
        6 => Event::Stop { id },
        7 => Event::Save { id },
        8 => Event::StepBack,
        _ => Event::Restore { id },
    }
}

/// An event with one field that reading does not let through.
fn unlisted_event(rng: &mut Rng) -> Fields {
    loop {
        let mut fields = event(rng).fields();
        match rng.below(5) {
            0 => fields.kind = rng.pick(&[9, 10, 11, 128, 255]),
            1 => fields.a = rng.pick(&[1, 16, 255]),
            2 => fields.b = rng.pick(&[1, 2, 255]),
            3 => fields.c = rng.pick(&[0, 1, 5, 255]),
            _ => fields.value = rng.pick(&[1, 0x0100_0000, u32::MAX]),
        }
        if Event::from_fields(fields).is_none() {
            return fields;
        }
    }
}

pub(super) fn reading(rng: &mut Rng, what: u8, bytes: &[u8], broken: &[u8]) -> Frame {
    let mut slice = bytes.to_vec();
    let length = length(rng, bytes.len(), broken);
    let filler = rng.pick(&[0, 0x4C, 255]);
    slice.resize(length, filler);
    frame::reading(what, &slice)
}

/// The record's length, or another of 0 to 32.
pub(super) fn length(rng: &mut Rng, right: usize, broken: &[u8]) -> usize {
    if !broken.contains(&1) {
        return right;
    }
    loop {
        let near = [right - 1, right + 1, 0, 2, 10, 14, 16, 20];
        let length = match rng.below(2) {
            0 => rng.pick(&near),
            _ => rng.between(0, frame::MAX_SLICE),
        };
        if length != right {
            return length;
        }
    }
}

/// One byte changed, both exchanged, or another record's mark.
pub(super) fn spoil_mark(rng: &mut Rng, bytes: &mut [u8]) {
    let right = [bytes[0], bytes[1]];
    while bytes[..2] == right {
        let other = rng.byte();
        let wrong = [
            Form::Short.mark(),
            Form::Long.mark(),
            Checkpoint::MARK,
            Event::MARK,
            [right[1], right[0]],
            [other, right[1]],
            [right[0], other],
        ];
        bytes[..2].copy_from_slice(&rng.pick(&wrong));
    }
}

fn message_bytes(message: &Message, form: Form) -> Vec<u8> {
    let mut bytes = vec![0; form.length()];
    bytes[..2].copy_from_slice(&form.mark());
    bytes[2] = message.kind.number();
    bytes[3] = message.group.n;
    bytes[4] = message.group.f;
    bytes[5] = message.from;
    bytes[6] = message.to;
    write_u32(&mut bytes, 8, message.order);
    let (known, willing) = (message.votes.known.0, message.votes.willing.0);
    if form.is_long() {
        write_u32(&mut bytes, 12, known);
        write_u32(&mut bytes, 16, willing);
    } else {
        write_u32(&mut bytes, 12, known << 16 | willing & 0xFFFF);
    }
    bytes
}

fn checkpoint_bytes(checkpoint: &Checkpoint) -> [u8; Checkpoint::LENGTH] {
    let mut bytes = [0; Checkpoint::LENGTH];
    bytes[..2].copy_from_slice(&Checkpoint::MARK);
    bytes[2] = checkpoint.id;
    bytes[3] = checkpoint.group.n;
    bytes[4] = checkpoint.group.f;
    bytes[5] = outcome_number(checkpoint.outcome);
    write_u32(&mut bytes, 6, checkpoint.order);
    write_u32(&mut bytes, 10, checkpoint.position as u32);
    bytes
}

fn event_bytes(fields: Fields) -> [u8; Event::LENGTH] {
    let mut bytes = [0; Event::LENGTH];
    bytes[..2].copy_from_slice(&Event::MARK);
    bytes[2..6].copy_from_slice(&[fields.kind, fields.a, fields.b, fields.c]);
    write_u32(&mut bytes, 6, fields.value);
    bytes
}
