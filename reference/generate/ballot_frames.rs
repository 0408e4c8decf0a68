//! Frames of records with ballots (document 02, U14), valid and refused by each question, alone and two at a time.

use super::choices;
use super::frames::{broken_questions, length, order, reading, spoil_mark, Frame};
use crate::ballot::BallotKind;
use crate::frame;
use crate::group::{Group, MAX_CONTROLLERS};
use crate::records::ballot_message::BallotMessage;
use crate::records::checkpoint::outcome_number;
use crate::records::event::Event;
use crate::records::form::Form;
use crate::records::telegram::Telegram;
use crate::records::write_u32;
use crate::rng::Rng;
use crate::vote_set::Verdict;

/// A telegram of a ballot, or one time of six an event, to be read or to be written.
pub fn frame(rng: &mut Rng) -> Frame {
    match rng.below(12) {
        0 => read_event(rng),
        1 => write_event(rng),
        2..=6 => read_telegram(rng),
        _ => write_telegram(rng),
    }
}

/// An event that ballots bring; what only the bench asks may be anything.
fn event(rng: &mut Rng) -> Event {
    let id = rng.pick(&[0, 1, 2, 16, 17, 32, 33, 255]);
    let other = rng.pick(&[0, 1, 3, 16, 32, 255]);
    let ballot = rng.pick(&[0, 1, 2, 254, 255, 256, 1 << 16, 1 << 24, u32::MAX]);
    match rng.below(3) {
        0 => Event::Lock {
            group: Group { n: id, f: other },
            ballots: true,
        },
        1 => Event::DeliverBallot {
            from: id,
            to: other,
            kind: rng.pick(&BallotKind::ALL),
            ballot,
        },
        _ => Event::OpenBallot { id, ballot },
    }
}

fn read_event(rng: &mut Rng) -> Frame {
    let broken = broken_questions(rng, &[1, 2, 3, 3]);
    let mut bytes = [0; Event::LENGTH];
    event(rng).write(&mut bytes);
    if broken.contains(&3) {
        match bytes[2] {
            0 => bytes[5] = rng.pick(&[2, 3, 128, 255]),
            3 => bytes[5] = rng.pick(&[0, 1, 4, 9, 255]),
            _ => bytes[rng.between(4, 5)] = rng.pick(&[1, 2, 255]),
        }
    }
    if broken.contains(&2) {
        spoil_mark(rng, &mut bytes);
    }
    reading(rng, frame::READ_EVENT, &bytes, &broken)
}

fn write_event(rng: &mut Rng) -> Frame {
    let broken = broken_questions(rng, &[1]);
    let length = length(rng, Event::LENGTH, &broken);
    frame::writing_event(length as u8, &event(rng))
}

fn read_telegram(rng: &mut Rng) -> Frame {
    let broken = broken_questions(rng, &[1, 2, 3, 3, 4, 7, 8, 9, 9, 28]);
    let message = message(rng, &broken);
    let mut form = message.form();
    if broken.contains(&4) && rng.chance(1, 2) {
        form = form.of_other_width();
    }
    let mut bytes = message_bytes(&message, form);
    if broken.contains(&9) && rng.chance(1, 3) {
        let sheet = &mut bytes[12..form.ballot_at()];
        sheet[rng.below(sheet.len())] = rng.pick(&[1, 2, 128, 255]);
    }
    if broken.contains(&3) {
        break_3(rng, form, &mut bytes);
    }
    if broken.contains(&2) {
        spoil_mark(rng, &mut bytes);
    }
    reading(rng, frame::READ_MESSAGE, &bytes, &broken)
}

/// A kind that is not listed or does not suit mark and length, a word above 2, or a byte that is to be 0.
fn break_3(rng: &mut Rng, form: Form, bytes: &mut Vec<u8>) {
    let more = form.ballot_at();
    match rng.below(5) {
        0 => bytes[2] = rng.pick(&[0, 9, 10, 128, 255]),
        1 => bytes[2] = rng.between(1, 4) as u8,
        2 => bytes[7] = rng.pick(&[1, 2, 128, 255]),
        3 => bytes[more + 2] = rng.pick(&[3, 4, 128, 255]),
        _ => bytes[more + 3] = rng.pick(&[1, 2, 128, 255]),
    }
    // A kind with a ballot in a form without one.
    if rng.chance(1, 6) {
        bytes[2] = rng.between(5, 8) as u8;
        bytes.truncate(more);
    }
}

fn write_telegram(rng: &mut Rng) -> Frame {
    let broken = broken_questions(rng, &[1, 4, 7, 8, 9, 9, 28]);
    let message = message(rng, &broken);
    let length = length(rng, message.form().length(), &broken);
    frame::writing_telegram(length as u8, &Telegram::Ballot(message))
}

fn message(rng: &mut Rng, broken: &[u8]) -> BallotMessage {
    let group = choices::group(rng, MAX_CONTROLLERS);
    let from = choices::id(rng, group);
    let others: Vec<u8> = group.ids().filter(|&id| id != from).collect();
    let mut message = BallotMessage {
        kind: rng.pick(&BallotKind::ALL),
        group,
        from,
        to: rng.pick(&others),
        order: order(rng, broken),
        ballot: match rng.below(3) {
            0 => rng.pick(&[1, 2, 254, 255]),
            _ => rng.between(1, 255) as u8,
        },
        last: 0,
        word: None,
    };
    fill(rng, &mut message);
    if broken.contains(&9) {
        unfill(rng, &mut message);
    }
    if broken.contains(&28) {
        message.ballot = 0;
        message.last = message.last.min(rng.pick(&[0, 0, 1]));
        message.word = message.word.filter(|_| message.last > 0 || needs_word(message.kind));
    }
    if broken.contains(&7) {
        match rng.below(3) {
            0 => message.from = choices::bad_id(rng, group),
            1 => message.to = choices::bad_id(rng, group),
            _ => message.to = from,
        }
    }
    if broken.contains(&4) && rng.chance(1, 2) {
        message.group = choices::bad_group(rng);
    }
    message
}

fn needs_word(kind: BallotKind) -> bool {
    matches!(kind, BallotKind::Put | BallotKind::Taken)
}

/// Last and word as the kind has them.
fn fill(rng: &mut Rng, message: &mut BallotMessage) {
    let word = choices::verdict(rng);
    if needs_word(message.kind) {
        message.word = Some(word);
    } else if message.kind == BallotKind::Promise && rng.chance(2, 3) {
        let any = rng.between(1, message.ballot.into()) as u8;
        message.last = rng.pick(&[1, message.ballot, message.ballot, any]);
        message.word = Some(word);
    }
}

/// Last and word as the kind does not have them.
fn unfill(rng: &mut Rng, message: &mut BallotMessage) {
    let any = rng.between(1, 255) as u8;
    let word: Verdict = choices::verdict(rng);
    let above = message.ballot.saturating_add(1);
    for _ in 0..20 {
        message.last = rng.pick(&[0, 0, 1, above, any]);
        message.word = rng.pick(&[None, Some(word)]);
        if !message.suits_kind() {
            return;
        }
    }
}

fn message_bytes(message: &BallotMessage, form: Form) -> Vec<u8> {
    let mut bytes = vec![0; form.length()];
    bytes[..2].copy_from_slice(&form.mark());
    bytes[2] = message.kind.number();
    bytes[3] = message.group.n;
    bytes[4] = message.group.f;
    bytes[5] = message.from;
    bytes[6] = message.to;
    write_u32(&mut bytes, 8, message.order);
    let more = [message.ballot, message.last, outcome_number(message.word)];
    bytes[form.ballot_at()..][..3].copy_from_slice(&more);
    bytes
}
