//! Schedules as text, one event a line, and as records: the one from the other.

use crate::records::event::Event;
use crate::text::{bench_report, MAX_SCHEDULE};
use std::fmt::Write;

/// The most bytes of a text.
const MAX_TEXT: usize = 327_680;

/// A word that was not expected, or that a line has ended: its line's number from 1 on, and the word.
struct Unexpected {
    line: usize,
    word: String,
}

/// The words for a, b and so on that stand after the first word of a line, and in their sequence.
enum Place {
    A,
    B,
    Number,
    Target,
    Name(fn(&mut Record, u8), &'static [(&'static str, u8)]),
}

#[derive(Clone, Copy, Default)]
pub(crate) struct Record {
    kind: u8,
    a: u8,
    b: u8,
    c: u8,
    value: u32,
}

impl Record {
    pub(crate) fn bytes(self) -> [u8; 10] {
        let v = self.value.to_be_bytes();
        [0x4C, 0x45, self.kind, self.a, self.b, self.c, v[0], v[1], v[2], v[3]]
    }
}

const WILLING: &[(&str, u8)] = &[("willing", 1), ("unwilling", 0)];
const WORDS: &[(&str, u8)] = &[("move", 1), ("stay", 0)];
const TELEGRAMS: &[(&str, u8)] = &[
    ("vote", 1),
    ("acknowledgement", 2),
    ("help-call", 3),
    ("help-answer", 4),
    ("ask", 5),
    ("promise", 6),
    ("put", 7),
    ("taken", 8),
];

fn set_b(record: &mut Record, number: u8) {
    record.b = number;
}

fn set_c(record: &mut Record, number: u8) {
    record.c = number;
}

/// What stands after a first word; deliveries go on by the telegram.
fn places(verb: &str) -> Option<(u8, Vec<Place>)> {
    use Place::{Name, Number, Target, A, B};
    Some(match verb {
        "lock" => (0, vec![A, B]),
        "order" => (1, vec![Number]),
        "vote" => (2, vec![A, Name(set_b, WILLING), Target]),
        "deliver" => (3, vec![Name(set_c, TELEGRAMS)]),
        "bell" => (4, vec![A]),
        "arbiter" => (5, vec![A, Name(set_b, WORDS)]),
        "stop" => (6, vec![A]),
        "save" => (7, vec![A]),
        "restore" => (8, vec![A]),
        "back" => (9, vec![]),
        "ballot" => (10, vec![A, Number]),
        _ => return None,
    })
}

fn digits(word: &str) -> Option<u64> {
    if word.is_empty() || !word.bytes().all(|byte| byte.is_ascii_digit()) {
        return None;
    }
    let word = word.trim_start_matches('0');
    if word.len() > 12 {
        return None;
    }
    Some(word.bytes().fold(0, |number, digit| number * 10 + u64::from(digit - b'0')))
}

fn target(word: &str) -> Option<u32> {
    let number = match word.strip_prefix('-') {
        Some(rest) => -(digits(rest)? as i64),
        None => digits(word)? as i64,
    };
    i32::try_from(number).ok().map(|position| position as u32)
}

/// Puts a word into its place; false where it was not expected there.
fn fill(record: &mut Record, place: &Place, word: &str) -> bool {
    match place {
        Place::A => match digits(word).and_then(|n| u8::try_from(n).ok()) {
            Some(number) => record.a = number,
            None => return false,
        },
        Place::B => match digits(word).and_then(|n| u8::try_from(n).ok()) {
            Some(number) => record.b = number,
            None => return false,
        },
        Place::Number => match digits(word).and_then(|n| u32::try_from(n).ok()) {
            Some(number) => record.value = number,
            None => return false,
        },
        Place::Target => match target(word) {
            Some(number) => record.value = number,
            None => return false,
        },
        Place::Name(set, names) => match names.iter().find(|(name, _)| *name == word) {
            Some((_, number)) => set(record, *number),
            None => return false,
        },
    }
    true
}

/// A line's record, none where it is blank; or the word that was not expected, empty at the line's end.
pub(crate) fn read_line(line: &str) -> Result<Option<Record>, String> {
    let line = line.split('#').next().unwrap_or("");
    let mut words = line.split([' ', '\t', '\r']).filter(|word| !word.is_empty());
    let Some(verb) = words.next() else {
        return Ok(None);
    };
    let Some((kind, mut wanted)) = places(verb) else {
        return Err(verb.to_string());
    };
    let mut record = Record { kind, ..Record::default() };
    let mut at = 0;
    while at < wanted.len() {
        let word = words.next().unwrap_or("");
        if word.is_empty() || !fill(&mut record, &wanted[at], word) {
            return Err(word.to_string());
        }
        if kind == 3 && at == 0 {
            if record.c > 4 {
                wanted.push(Place::Number);
            }
            wanted.extend([Place::A, Place::B]);
        }
        at += 1;
    }
    match words.next() {
        None => return Ok(Some(record)),
        Some("own-arbiter") if kind == 0 => record.c = 1,
        Some(word) => return Err(word.to_string()),
    }
    match words.next() {
        None => Ok(Some(record)),
        Some(word) => Err(word.to_string()),
    }
}

/// A byte is a character here, whatever it is.
pub(crate) fn characters(bytes: &[u8]) -> String {
    bytes.iter().map(|&byte| char::from(byte)).collect()
}

fn read_text(bytes: &[u8]) -> Result<Vec<u8>, Unexpected> {
    let mut records = Vec::new();
    for (index, line) in characters(bytes).split('\n').enumerate() {
        match read_line(line) {
            Ok(None) => {}
            Ok(Some(record)) => records.extend(record.bytes()),
            Err(word) => return Err(Unexpected { line: index + 1, word }),
        }
    }
    Ok(records)
}

/// No text begins as records do, or has a control byte but tabs, newlines and returns.
pub fn is_text(bytes: &[u8]) -> bool {
    let begun = &Event::MARK[..bytes.len().min(2)];
    let begins = !bytes.is_empty() && bytes.starts_with(begun);
    !begins && bytes.iter().all(|byte| matches!(byte, 9 | 10 | 13 | 32..))
}

/// What is printed of a line with a word that was not expected, empty at the line's end.
pub(crate) fn refused_line(line: usize, word: &str) -> Vec<u8> {
    let shown: Vec<u8> = if word.is_empty() {
        b"end of line".to_vec()
    } else {
        word.chars().take(40).map(|character| character as u8).collect()
    };
    [format!("- line {line}: ").as_bytes(), &shown, b"\n"].concat()
}

/// The records of a schedule in either form, or the one line that is printed instead.
fn records_in(schedule: &[u8]) -> Result<Vec<u8>, Vec<u8>> {
    if schedule.len() > MAX_TEXT {
        return Err(b"- 1\n".to_vec());
    }
    let records = if is_text(schedule) {
        read_text(schedule).map_err(|Unexpected { line, word }| refused_line(line, &word))?
    } else {
        schedule.to_vec()
    };
    if records.len() > MAX_SCHEDULE {
        return Err(b"- 1\n".to_vec());
    }
    Ok(records)
}

/// What the bench program prints.
pub fn bench(schedule: &[u8]) -> Vec<u8> {
    match records_in(schedule) {
        Ok(records) => bench_report(&records).into_bytes(),
        Err(refusal) => refusal,
    }
}

/// What the records program prints.
pub fn records(schedule: &[u8]) -> Vec<u8> {
    records_in(schedule).unwrap_or_else(|refusal| refusal)
}

fn name(names: &'static [(&'static str, u8)], number: u8) -> &'static str {
    names.iter().find(|(_, n)| *n == number).map_or("", |(name, _)| name)
}

/// The word for a telegram of that kind.
pub(crate) fn telegram(kind: u8) -> &'static str {
    name(TELEGRAMS, kind)
}

pub(crate) fn line(event: &Event) -> String {
    let x = event.fields();
    let (a, b, value) = (x.a, x.b, x.value);
    match x.kind {
        0 if x.c == 1 => format!("lock {a} {b} own-arbiter"),
        0 => format!("lock {a} {b}"),
        1 => format!("order {value}"),
        2 => format!("vote {a} {} {}", name(WILLING, b), value as i32),
        3 if x.c <= 4 => format!("deliver {} {a} {b}", name(TELEGRAMS, x.c)),
        3 => format!("deliver {} {value} {a} {b}", name(TELEGRAMS, x.c)),
        4 => format!("bell {a}"),
        5 => format!("arbiter {a} {}", name(WORDS, b)),
        6 => format!("stop {a}"),
        7 => format!("save {a}"),
        8 => format!("restore {a}"),
        9 => "back".to_string(),
        _ => format!("ballot {a} {value}"),
    }
}

/// What the text program prints.
pub fn text(schedule: &[u8]) -> Vec<u8> {
    let records = match records_in(schedule) {
        Ok(records) => records,
        Err(refusal) => return refusal,
    };
    let mut text = String::new();
    for (index, piece) in records.chunks(Event::LENGTH).enumerate() {
        match Event::read(piece) {
            Ok(event) => {
                let _ = writeln!(text, "{}", line(&event));
            }
            Err(question) => return format!("- record {index}: {question}\n").into_bytes(),
        }
    }
    text.into_bytes()
}
