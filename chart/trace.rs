//! Reads a trace: the lines that the console prints of a schedule. What is not of its form is refused with the line's number.

use crate::words::{number, Event, Route, Word};

/// A lock has at most this many controllers.
const MOST_CONTROLLERS: u8 = 32;

/// A controller's C line.
#[derive(Clone, Copy, PartialEq, Eq, Debug, Default)]
pub struct State {
    pub stage: u8,
    pub outcome: Option<Word>,
    pub position: i32,
}

pub const STOPPED: u8 = 8;
pub const STANDING_BY: u8 = 9;

/// What the trace has of one line of the schedule.
#[derive(Clone, Debug, Default)]
pub struct Entry {
    pub text: String,
    /// None: a line that is no event.
    pub index: Option<usize>,
    pub event: Option<Event>,
    /// The question that refused it, 0 where it was accepted.
    pub question: u8,
    pub words: String,
    /// The index of the event that this step back undid.
    pub undone: Option<usize>,
    pub states: Vec<(u8, State)>,
    pub sent: Vec<Route>,
    pub put: Vec<(u8, Word)>,
    pub given: Vec<(u8, Word)>,
}

impl Entry {
    pub fn is_accepted(&self) -> bool {
        self.index.is_some() && self.question == 0
    }
}

#[derive(Clone, Copy, PartialEq, Eq, Debug)]
pub struct Lock {
    pub n: u8,
    pub f: u8,
    pub own_arbiter: bool,
}

#[derive(Default)]
pub struct Trace {
    pub lock: Option<Lock>,
    pub entries: Vec<Entry>,
}

/// The trace, or the number of the first line that is none of its lines.
pub fn read(text: &str) -> Result<Trace, usize> {
    let mut reader = Reader::default();
    for (at, line) in text.lines().enumerate() {
        reader.line(line).ok_or(at + 1)?;
    }
    Ok(reader.trace)
}

#[derive(Default)]
struct Reader {
    trace: Trace,
    events: usize,
    /// The line that was played, until its answer comes.
    played: Option<String>,
}

impl Reader {
    fn line(&mut self, line: &str) -> Option<()> {
        if line.is_empty() {
            return Some(());
        }
        if let Some(text) = line.strip_prefix("> ") {
            self.played = Some(text.to_string());
            return Some(());
        }
        if line.starts_with("- ") {
            self.played = None;
            self.trace.entries.push(Entry { text: line.to_string(), ..Entry::default() });
            return Some(());
        }
        if line.starts_with(|first: char| first.is_ascii_digit()) {
            return self.answer(line);
        }
        let n = self.trace.lock?.n;
        let entry = self.trace.entries.last_mut().filter(|entry| entry.is_accepted())?;
        detail(entry, n, line)
    }

    /// `K A accepted` or `K A refused: WORDS`.
    fn answer(&mut self, line: &str) -> Option<()> {
        let mut words = line.splitn(3, ' ');
        let (index, question): (usize, u8) = (number(&mut words)?, number(&mut words)?);
        let rest = words.next()?;
        let asked = match question {
            0 => (rest == "accepted").then_some("")?,
            _ => rest.strip_prefix("refused: ")?,
        };
        if index != self.events {
            return None;
        }
        self.events += 1;
        let text = self.played.take()?;
        let event = Event::read(&text)?;
        if question == 0 {
            self.accept(&event)?;
        }
        self.trace.entries.push(Entry {
            text,
            index: Some(index),
            event: Some(event),
            question,
            words: asked.to_string(),
            ..Entry::default()
        });
        Some(())
    }

    /// What a picture relies on: one lock, before all else, and controllers that it has.
    fn accept(&mut self, event: &Event) -> Option<()> {
        if let Event::Lock { n, f, own_arbiter } = *event {
            let fits = (2..=MOST_CONTROLLERS).contains(&n) && (1..n).contains(&f);
            if self.trace.lock.is_some() || !fits {
                return None;
            }
            self.trace.lock = Some(Lock { n, f, own_arbiter });
        }
        let n = self.trace.lock?.n;
        let sender = match event {
            Event::Deliver(route) => route.from,
            _ => 1,
        };
        let ids = [event.controller().unwrap_or(1), sender];
        ids.iter().all(|id| (1..=n).contains(id)).then_some(())
    }
}

/// A line below an accepted event.
fn detail(entry: &mut Entry, n: u8, line: &str) -> Option<()> {
    let words = &mut line.split(' ');
    let known = |id: &u8| (1..=n).contains(id);
    match words.next()? {
        "undone" if entry.event == Some(Event::Back) && entry.undone.is_none() => {
            entry.undone = Some(number(words)?);
        }
        "C" => {
            let id = number(words).filter(known)?;
            let stage = number(words)?;
            let outcome = match words.next()? {
                "-" => None,
                letter => Some(Word::read(letter)?),
            };
            let position = number(words)?;
            entry.states.push((id, State { stage, outcome, position }));
        }
        "sent" => {
            let route = Route::read(words)?;
            entry.sent.push(Some(route).filter(|route| known(&route.from) && known(&route.to))?);
        }
        "put" => entry.put.push((number(words).filter(known)?, Word::read(words.next()?)?)),
        "given" => entry.given.push((number(words).filter(known)?, Word::read(words.next()?)?)),
        _ => return None,
    }
    words.next().is_none().then_some(())
}
