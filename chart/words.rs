//! The words of the text form: telegrams, the two words, events.

#[derive(Clone, Copy, PartialEq, Eq, PartialOrd, Ord, Debug)]
pub enum Word {
    Move,
    Stay,
}

impl Word {
    pub fn read(text: &str) -> Option<Word> {
        match text {
            "move" | "M" => Some(Word::Move),
            "stay" | "S" => Some(Word::Stay),
            _ => None,
        }
    }

    pub fn name(self) -> &'static str {
        match self {
            Word::Move => "Move",
            Word::Stay => "Stay",
        }
    }

    pub fn letter(self) -> &'static str {
        &self.name()[..1]
    }
}

/// Kinds of telegram: name, short name, colour.
const KINDS: [(&str, &str, &str); 8] = [
    ("vote", "vote", "#1f4e9c"),
    ("acknowledgement", "ack", "#6a1b9a"),
    ("help-call", "call", "#8a4b00"),
    ("help-answer", "ans", "#00665a"),
    ("ask", "ask", "#8e1b4f"),
    ("promise", "pro", "#8e1b4f"),
    ("put", "put", "#8e1b4f"),
    ("taken", "tkn", "#8e1b4f"),
];

/// A kind of telegram, by its place in the table.
#[derive(Clone, Copy, PartialEq, Eq, PartialOrd, Ord, Debug)]
pub struct Kind(usize);

impl Kind {
    pub fn read(text: &str) -> Option<Kind> {
        KINDS.iter().position(|(name, _, _)| *name == text).map(Kind)
    }

    pub fn name(self) -> &'static str {
        KINDS[self.0].0
    }

    pub fn short(self) -> &'static str {
        KINDS[self.0].1
    }

    pub fn colour(self) -> &'static str {
        KINDS[self.0].2
    }

    pub fn has_ballot(self) -> bool {
        self.0 >= 4
    }
}

/// What goes from one to another. Of no ballot: 0.
#[derive(Clone, Copy, PartialEq, Eq, Debug)]
pub struct Route {
    pub kind: Kind,
    pub ballot: u32,
    pub from: u8,
    pub to: u8,
}

impl Route {
    /// `vote 1 2`, or with the ballot: `ask 4 1 2`.
    pub fn read<'a>(words: &mut impl Iterator<Item = &'a str>) -> Option<Route> {
        let kind = Kind::read(words.next()?)?;
        let ballot = if kind.has_ballot() { number(words)? } else { 0 };
        let (from, to) = (number(words)?, number(words)?);
        Some(Route { kind, ballot, from, to })
    }

    pub fn title(&self) -> String {
        format!("{} {} to {}", self.label(true), self.from, self.to)
    }

    /// Its kind, in full or short, and its ballot.
    pub fn label(&self, full: bool) -> String {
        let name = if full { self.kind.name() } else { self.kind.short() };
        match (self.kind.has_ballot(), full) {
            (false, _) => name.to_string(),
            (true, true) => format!("{name} {}", self.ballot),
            (true, false) => format!("{name}{}", self.ballot),
        }
    }
}

#[derive(Clone, Copy, PartialEq, Eq, Debug)]
pub enum Event {
    Lock { n: u8, f: u8, own_arbiter: bool },
    Order(u32),
    Vote { id: u8, willing: bool },
    Deliver(Route),
    Bell(u8),
    Arbiter(u8, Word),
    Stop(u8),
    Save(u8),
    Restore(u8),
    Back,
    Ballot(u8, u32),
}

impl Event {
    pub fn read(text: &str) -> Option<Event> {
        let words = &mut text.split_ascii_whitespace();
        let event = match words.next()? {
            "lock" => {
                let (n, f) = (number(words)?, number(words)?);
                let own_arbiter = match words.next() {
                    None => false,
                    Some("own-arbiter") => true,
                    Some(_) => return None,
                };
                Event::Lock { n, f, own_arbiter }
            }
            "order" => Event::Order(number(words)?),
            "vote" => {
                let id = number(words)?;
                let willing = match words.next()? {
                    "willing" => true,
                    "unwilling" => false,
                    _ => return None,
                };
                let _target: i64 = number(words)?;
                Event::Vote { id, willing }
            }
            "deliver" => Event::Deliver(Route::read(words)?),
            "bell" => Event::Bell(number(words)?),
            "arbiter" => Event::Arbiter(number(words)?, Word::read(words.next()?)?),
            "stop" => Event::Stop(number(words)?),
            "save" => Event::Save(number(words)?),
            "restore" => Event::Restore(number(words)?),
            "back" => Event::Back,
            "ballot" => Event::Ballot(number(words)?, number(words)?),
            _ => return None,
        };
        words.next().is_none().then_some(event)
    }

    /// The controller on whose line it stands: the receiver of a delivery.
    pub fn controller(&self) -> Option<u8> {
        match *self {
            Event::Lock { .. } | Event::Order(_) | Event::Back => None,
            Event::Vote { id, .. } | Event::Arbiter(id, _) | Event::Ballot(id, _) => Some(id),
            Event::Deliver(route) => Some(route.to),
            Event::Bell(id) | Event::Stop(id) | Event::Save(id) | Event::Restore(id) => Some(id),
        }
    }
}

pub fn number<'a, T: std::str::FromStr>(words: &mut impl Iterator<Item = &'a str>) -> Option<T> {
    words.next()?.parse().ok()
}
