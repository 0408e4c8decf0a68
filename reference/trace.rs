//! The trace of a schedule: of each event its line in the text form, its answer, and what came of it.

use crate::ballot::BallotKind;
use crate::bench::lock::Lock;
use crate::bench::Bench;
use crate::records::event::Event;
use crate::records::message::MessageKind;
use crate::schedule_text::{self, line, read_line};
use crate::session::{Session, MOST_REMEMBERED};
use crate::text::{controller_state, MAX_SCHEDULE};
use crate::vote_set::Verdict;
use std::collections::BTreeSet;
use std::fmt::Write;

/// The words of the questions stand in this document alone.
const QUESTIONS: &str = include_str!("../docs/QUESTIONS.md");

/// The words of a question: the second column of the first table that has its number.
pub fn words_of(question: u8) -> &'static str {
    let number = question.to_string();
    let cells = |row: &'static str| row.split('|').map(str::trim);
    let mut rows = QUESTIONS.lines().filter(|row| row.starts_with('|'));
    let row = rows.find(|row| cells(row).nth(1) == Some(number.as_str()));
    row.and_then(|row| cells(row).nth(2)).unwrap_or("")
}

/// A session whose every event is written down.
#[derive(Default)]
struct Trace {
    session: Session,
    events: usize,
    /// The indices of the remembered events, the newest last.
    remembered: Vec<usize>,
    text: String,
}

/// The trace of a schedule in either form. A line of text that is no event is refused by
/// itself; records that do not all read have no text, and so no trace.
pub fn trace(schedule: &[u8]) -> Vec<u8> {
    let mut trace = Trace::default();
    if schedule_text::is_text(schedule) {
        return trace_text(trace, schedule);
    }
    if schedule.len() > MAX_SCHEDULE {
        return b"- 1\n".to_vec();
    }
    let read: Result<Vec<Event>, u8> = schedule.chunks(Event::LENGTH).map(Event::read).collect();
    match read {
        Ok(events) => events.iter().for_each(|event| trace.play(event)),
        Err(_) => return schedule_text::text(schedule),
    }
    trace.text.into_bytes()
}

fn trace_text(mut trace: Trace, schedule: &[u8]) -> Vec<u8> {
    let mut bytes = Vec::new();
    for (index, text) in schedule.split(|&byte| byte == b'\n').enumerate() {
        match read_line(&schedule_text::characters(text)) {
            Ok(None) => {}
            Ok(Some(record)) => match Event::read(&record.bytes()) {
                Ok(event) => trace.play(&event),
                Err(question) => unreachable!("a line of the text form is refused by {question}"),
            },
            Err(word) => {
                bytes.append(&mut std::mem::take(&mut trace.text).into_bytes());
                bytes.extend(schedule_text::refused_line(index + 1, &word));
            }
        }
    }
    bytes.extend(trace.text.into_bytes());
    bytes
}

impl Trace {
    fn play(&mut self, event: &Event) {
        let before = self.session.bench().clone();
        let answer = self.session.step(event);
        let _ = writeln!(self.text, "> {}", line(event));
        let _ = match answer {
            0 => writeln!(self.text, "{} 0 accepted", self.events),
            _ => writeln!(self.text, "{} {answer} refused: {}", self.events, words_of(answer)),
        };
        if answer == 0 {
            self.show(event, &before);
        }
        self.events += 1;
    }

    fn show(&mut self, event: &Event, before: &Bench) {
        if *event == Event::StepBack {
            let undone = self.remembered.pop();
            self.say(undone.map(|index| format!("undone {index}")));
        } else if !matches!(event, Event::Lock { .. }) {
            self.remembered.push(self.events);
            let over = self.remembered.len().saturating_sub(MOST_REMEMBERED);
            self.remembered.drain(..over);
        }
        let after = self.session.bench().clone();
        self.say(changed_lines(before, &after));
        if *event == Event::StepBack {
            return;
        }
        self.say(newly_sent(before, &after));
        self.say(newly_put(before, &after));
        if let Event::Decision { id, verdict } = event {
            self.say([format!("given {id} {}", word(*verdict))]);
        }
    }

    fn say(&mut self, lines: impl IntoIterator<Item = String>) {
        for line in lines {
            let _ = writeln!(self.text, "{line}");
        }
    }
}

fn controller_lines(bench: &Bench) -> Vec<String> {
    let controllers = bench.lock().map_or(&[][..], Lock::controllers);
    controllers.iter().map(controller_state).collect()
}

/// The C lines that differ from those before; after a lock all of them.
fn changed_lines(before: &Bench, after: &Bench) -> Vec<String> {
    let old = controller_lines(before);
    let new = controller_lines(after).into_iter().enumerate();
    let changed = new.filter(|(at, line)| old.get(*at) != Some(line));
    changed.map(|(_, line)| line).collect()
}

/// By kind, ballot, sender and receiver; a message of no ballot has 0.
type Route = (u8, u8, u8, u8);

fn routes(bench: &Bench) -> BTreeSet<Route> {
    let Some(lock) = bench.lock() else {
        return BTreeSet::new();
    };
    let plain = lock.sent().iter().map(|m| (m.kind.number(), 0, m.from, m.to));
    let of_ballots = lock.ballots_sent().iter().map(|m| (m.kind.number(), m.ballot, m.from, m.to));
    plain.chain(of_ballots).collect()
}

fn newly_sent(before: &Bench, after: &Bench) -> Vec<String> {
    let (old, new) = (routes(before), routes(after));
    new.difference(&old).copied().map(sent_line).collect()
}

fn sent_line((kind, ballot, from, to): Route) -> String {
    let name = schedule_text::telegram(kind);
    match (MessageKind::from_number(kind), BallotKind::from_number(kind)) {
        (None, Some(_)) => format!("sent {name} {ballot} {from} {to}"),
        _ => format!("sent {name} {from} {to}"),
    }
}

fn newly_put(before: &Bench, after: &Bench) -> Vec<String> {
    let put = |bench: &Bench| -> Vec<Option<Verdict>> {
        let controllers = bench.lock().map_or(&[][..], Lock::controllers);
        controllers.iter().map(|controller| controller.proposed()).collect()
    };
    let old = put(before);
    let new = put(after).into_iter().enumerate();
    let now = new.filter(|(at, verdict)| old.get(*at) != Some(verdict));
    now.filter_map(|(at, verdict)| Some(format!("put {} {}", at + 1, word(verdict?)))).collect()
}

fn word(verdict: Verdict) -> &'static str {
    match verdict {
        Verdict::Stay => "stay",
        Verdict::Move => "move",
    }
}
