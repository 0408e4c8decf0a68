//! What a set of frames meets of telegrams of kinds 5 to 8 (document 02, U14): each answer in each form, and the causes of 3, 4
//! and 9 one by one. And of the events that ballots bring.

use crate::ballot::BallotKind;
use crate::frame::{self, READ_EVENT, READ_MESSAGE, WRITE_EVENT, WRITE_MESSAGE};
use crate::records::ballot_message::BallotMessage;
use crate::records::event::Event;
use crate::records::form::Form;
use crate::records::telegram::Telegram;
use std::collections::BTreeMap;

/// The forms, by length and mark.
const NAMES: [(Form, &str); 4] = [
    (Form::Short, "16 bytes 4C 4B"),
    (Form::ShortBallot, "20 bytes 4C 4B"),
    (Form::Long, "20 bytes 4C 4C"),
    (Form::LongBallot, "24 bytes 4C 4C"),
];
const LENGTHS: [usize; 3] = [16, 20, 24];

#[derive(Clone, Debug, Default)]
pub struct BallotRecords {
    telegrams: u64,
    events: u64,
    counts: BTreeMap<String, u64>,
}

impl BallotRecords {
    /// Counts a frame that reads or writes a telegram or an event; others are passed over.
    pub fn add(&mut self, frame: &[u8]) {
        let length = usize::from(frame[1]);
        match frame[0] {
            READ_MESSAGE => self.add_read(&frame[2..2 + length]),
            WRITE_MESSAGE => {
                if let Some(Telegram::Ballot(message)) = frame::telegram_fields(&frame[2..]) {
                    self.add_written(&message, length);
                }
            }
            READ_EVENT => self.add_read_event(&frame[2..2 + length]),
            WRITE_EVENT => self.add_written_event(&frame[2..], length),
            _ => {}
        }
    }

    /// Telegrams and events.
    pub fn frames(&self) -> [u64; 2] {
        [self.telegrams, self.events]
    }

    /// Name and count of everything that the frames should meet.
    pub fn rows(&self) -> Vec<(String, u64)> {
        let count = |name: String| {
            let met = self.counts.get(&name).copied().unwrap_or(0);
            (name, met)
        };
        wanted().into_iter().map(count).collect()
    }

    fn meet(&mut self, name: String) {
        *self.counts.entry(name).or_default() += 1;
    }

    fn add_read(&mut self, bytes: &[u8]) {
        self.telegrams += 1;
        let read = Telegram::read(bytes);
        let Ok(form) = Form::of_bytes(bytes) else {
            let number = read.err().unwrap_or(0);
            return self.meet(match number {
                1 => "of another length, 1".to_string(),
                _ => format!("{} bytes with another mark, {number}", bytes.len()),
            });
        };
        let (_, name) = NAMES[place(form)];
        match read {
            Ok(Telegram::Votes(_)) => self.meet(format!("{name}: kinds 1 to 4 read")),
            Ok(Telegram::Ballot(message)) => {
                self.meet(format!("{name}: {:?} read", message.kind));
                if message.last == message.ballot {
                    self.meet(format!("{name}: last the ballot itself, read"));
                }
            }
            Err(number) => {
                for cause in causes(form, bytes, number) {
                    self.meet(format!("{name}: {number}, {cause}"));
                }
            }
        }
    }

    fn add_written(&mut self, message: &BallotMessage, length: usize) {
        self.telegrams += 1;
        let form = message.form();
        let (_, name) = NAMES[place(form)];
        let number = message.write(&mut vec![0; length]);
        if number == 0 {
            return self.meet(format!("{name}: {:?} written", message.kind));
        }
        self.meet(format!("{name}: {number}, not written"));
        if number == 1 && LENGTHS.contains(&length) {
            self.meet(format!("{name}: 1, not written into {length} bytes"));
        }
    }
}

/// The events that ballots bring, by kind and c.
const EVENTS: [&str; 4] = [
    "lock with c = 1",
    "delivery of kinds 5 to 8, ballot 1 to 255",
    "delivery of kinds 5 to 8, another ballot",
    "opening",
];

impl BallotRecords {
    fn add_read_event(&mut self, bytes: &[u8]) {
        self.events += 1;
        match Event::read(bytes) {
            Ok(event) => self.meet(format!("event: {} read", event_name(&event))),
            Err(3) => {
                let (kind, c) = (bytes[2], bytes[5]);
                let cause = match (kind, c) {
                    (0, 2..) => "a lock with c above 1",
                    (3, 1..=4) => "a delivery of kinds 1 to 4 with a value",
                    (3, _) => "a delivery of an unlisted kind",
                    (10, _) => "an opening with b or c",
                    _ => "others",
                };
                self.meet(format!("event: 3, {cause}"));
            }
            Err(number) => self.meet(format!("event: {number}")),
        }
    }

    /// The fields stand as after an event's mark.
    fn add_written_event(&mut self, fields: &[u8], length: usize) {
        self.events += 1;
        let record = [&Event::MARK, &fields[..8]].concat();
        if let (Ok(event), Event::LENGTH) = (Event::read(&record), length) {
            self.meet(format!("event: {} written", event_name(&event)));
        }
    }
}

fn event_name(event: &Event) -> &'static str {
    match event {
        Event::Lock { ballots: true, .. } => EVENTS[0],
        Event::DeliverBallot {
            ballot: 1..=255, ..
        } => EVENTS[1],
        Event::DeliverBallot { .. } => EVENTS[2],
        Event::OpenBallot { .. } => EVENTS[3],
        _ => "another",
    }
}

fn place(form: Form) -> usize {
    NAMES.iter().position(|(named, _)| *named == form).expect("named")
}

/// By which bytes a refusal came about, told from the bytes alone.
fn causes(form: Form, bytes: &[u8], number: u8) -> Vec<&'static str> {
    let kind = bytes[2];
    let (n, f) = (bytes[3], bytes[4]);
    let in_range = (2..=32).contains(&n) && (1..n).contains(&f);
    let more = &bytes[bytes.len() - 4..];
    let (ballot, last, word) = (more[0], more[1], more[2]);
    let sheet = bytes[12..bytes.len() - 4].iter().any(|&byte| byte != 0);
    let all: &[(u8, bool, &str)] = &[
        (3, !(1..=8).contains(&kind), "an unlisted kind"),
        (3, (1..=4).contains(&kind) && form.has_ballot(), "one of kinds 1 to 4"),
        (3, (5..=8).contains(&kind) && !form.has_ballot(), "one of kinds 5 to 8"),
        (3, bytes[7] != 0, "byte 7"),
        (3, form.has_ballot() && word > 2, "a word above 2"),
        (3, form.has_ballot() && more[3] != 0, "the last byte"),
        (4, in_range, "n of the other width"),
        (4, !in_range, "n or f out of range"),
        (7, true, "controllers"),
        (8, true, "order 0"),
        (9, sheet, "a sheet that is not empty"),
        (9, kind == 5 && (last != 0 || word != 0), "an ask with last or word"),
        (9, kind == 6 && last != 0 && word == 0, "a promise with last alone"),
        (9, kind == 6 && last == 0 && word != 0, "a promise with a word alone"),
        (9, kind == 6 && last > ballot, "a promise with last above its ballot"),
        (9, kind == 7 && last != 0, "a put with last"),
        (9, kind == 7 && word == 0, "a put without a word"),
        (9, kind == 8 && last != 0, "a taken with last"),
        (9, kind == 8 && word == 0, "a taken without a word"),
        (28, true, "ballot 0"),
    ];
    let met = all.iter().filter(|(refusal, met, _)| *refusal == number && *met);
    met.map(|&(_, _, name)| name).collect()
}

/// The rows, in the sequence of the questions.
fn wanted() -> Vec<String> {
    let mut rows = vec!["of another length, 1".to_string()];
    rows.extend(LENGTHS.map(|length| format!("{length} bytes with another mark, 2")));
    for (form, name) in NAMES {
        if !form.has_ballot() {
            rows.push(format!("{name}: 3, one of kinds 5 to 8"));
            continue;
        }
        rows.extend(BallotKind::ALL.map(|kind| format!("{name}: {kind:?} read")));
        rows.push(format!("{name}: last the ballot itself, read"));
        let refusals = [
            "3, an unlisted kind",
            "3, one of kinds 1 to 4",
            "3, byte 7",
            "3, a word above 2",
            "3, the last byte",
            "4, n of the other width",
            "4, n or f out of range",
            "7, controllers",
            "8, order 0",
            "9, a sheet that is not empty",
            "9, an ask with last or word",
            "9, a promise with last alone",
            "9, a promise with a word alone",
            "9, a promise with last above its ballot",
            "9, a put with last",
            "9, a put without a word",
            "9, a taken with last",
            "9, a taken without a word",
            "28, ballot 0",
        ];
        rows.extend(refusals.map(|refusal| format!("{name}: {refusal}")));
        rows.extend(BallotKind::ALL.map(|kind| format!("{name}: {kind:?} written")));
        rows.extend([1, 4, 7, 8, 9, 28].map(|number| format!("{name}: {number}, not written")));
        let others = LENGTHS.into_iter().filter(|&length| length != form.length());
        rows.extend(others.map(|length| format!("{name}: 1, not written into {length} bytes")));
    }
    for done in ["read", "written"] {
        rows.extend(EVENTS.map(|name| format!("event: {name} {done}")));
    }
    let refusals = [
        "1",
        "2",
        "3, a lock with c above 1",
        "3, a delivery of kinds 1 to 4 with a value",
        "3, a delivery of an unlisted kind",
        "3, an opening with b or c",
    ];
    rows.extend(refusals.map(|refusal| format!("event: {refusal}")));
    rows
}
