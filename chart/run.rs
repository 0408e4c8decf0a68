//! The run that a trace tells: which order each line belongs to, what became of each telegram, what was undone.

use crate::trace::{Entry, Lock, State, Trace};
use crate::words::{Event, Route};
use std::collections::HashMap;

/// A telegram: the row at which it was sent, and the rows at which it came.
#[derive(Clone, Debug)]
pub struct Telegram {
    pub route: Route,
    pub sent: usize,
    pub comes: Vec<usize>,
    /// Whether its sending was undone.
    withdrawn: bool,
}

/// Rows are places in `entries`.
pub struct Run {
    pub lock: Option<Lock>,
    /// The row at which the lock is set up, and the lines begin.
    pub lock_row: usize,
    pub entries: Vec<Entry>,
    pub telegrams: Vec<Telegram>,
    /// The row of the step back that undid it.
    pub undone_by: Vec<Option<usize>>,
    /// The row of the order that is open at each row.
    pub order_at: Vec<Option<usize>>,
    /// The C lines after each row.
    pub states: Vec<Vec<State>>,
}

/// The run, or the index of the event of which the trace tells what cannot be: a step back that undoes nothing, a telegram
/// that comes and was not sent.
pub fn run(trace: Trace) -> Result<Run, usize> {
    let rows = trace.entries.len();
    let mut story = Story {
        run: Run {
            lock: trace.lock,
            lock_row: 0,
            entries: Vec::with_capacity(rows),
            telegrams: Vec::new(),
            undone_by: vec![None; rows],
            order_at: Vec::with_capacity(rows),
            states: Vec::with_capacity(rows),
        },
        opened: Vec::new(),
        row_of: HashMap::new(),
        sent: HashMap::new(),
        now: vec![State::default(); trace.lock.map_or(0, |lock| usize::from(lock.n))],
    };
    for entry in trace.entries {
        let index = entry.index.unwrap_or(0);
        story.tell(entry).ok_or(index)?;
    }
    Ok(story.run)
}

struct Story {
    run: Run,
    /// The rows of the orders opened and not undone.
    opened: Vec<usize>,
    row_of: HashMap<usize, usize>,
    /// The telegrams sent at each row.
    sent: HashMap<usize, Vec<usize>>,
    now: Vec<State>,
}

impl Story {
    fn tell(&mut self, entry: Entry) -> Option<()> {
        let row = self.run.entries.len();
        if let Some(index) = entry.index {
            self.row_of.insert(index, row);
        }
        let before = self.opened.last().copied();
        match entry.event.filter(|_| entry.is_accepted()) {
            Some(Event::Lock { .. }) => self.run.lock_row = row,
            Some(Event::Order(_)) => self.opened.push(row),
            Some(Event::Deliver(route)) => self.telegram(&route)?.comes.push(row),
            Some(Event::Back) => self.undo(row, *self.row_of.get(&entry.undone?)?)?,
            _ => {}
        }
        let order = self.opened.last().copied();
        for route in &entry.sent {
            self.sent.entry(row).or_default().push(self.run.telegrams.len());
            self.run.telegrams.push(Telegram {
                route: *route,
                sent: row,
                comes: Vec::new(),
                withdrawn: false,
            });
        }
        for (id, state) in &entry.states {
            *self.now.get_mut(usize::from(*id).checked_sub(1)?)? = *state;
        }
        self.run.states.push(self.now.clone());
        // A step back that undoes an order still belongs to it.
        let is_back = entry.event == Some(Event::Back);
        self.run.order_at.push(if is_back { before } else { order });
        self.run.entries.push(entry);
        Some(())
    }

    /// The last one sent so, unless its sending was undone.
    fn telegram(&mut self, route: &Route) -> Option<&mut Telegram> {
        let is_meant = |t: &&mut Telegram| t.route == *route && !t.withdrawn;
        self.run.telegrams.iter_mut().rev().find(is_meant)
    }

    fn undo(&mut self, row: usize, undone: usize) -> Option<()> {
        let entry = self.run.entries.get(undone)?;
        let can_be_undone = entry.is_accepted() && self.run.undone_by[undone].is_none();
        if !can_be_undone || matches!(entry.event, Some(Event::Back | Event::Lock { .. })) {
            return None;
        }
        self.run.undone_by[undone] = Some(row);
        self.opened.retain(|order| *order != undone);
        for telegram in self.sent.remove(&undone).unwrap_or_default() {
            self.run.telegrams[telegram].withdrawn = true;
        }
        Some(())
    }
}

impl Run {
    pub fn n(&self) -> usize {
        self.lock.map_or(0, |lock| usize::from(lock.n))
    }

    /// The index of the event at a row.
    pub fn index(&self, row: usize) -> usize {
        self.entries[row].index.unwrap_or(0)
    }

    pub fn is_undone(&self, row: usize) -> bool {
        self.undone_by[row].is_some()
    }

    /// The number of the order that is open at a row.
    pub fn order_number(&self, row: usize) -> Option<u32> {
        match self.entries[self.order_at[row]?].event {
            Some(Event::Order(number)) => Some(number),
            _ => None,
        }
    }

    /// The C line of a controller before a row.
    pub fn before(&self, row: usize, id: usize) -> State {
        row.checked_sub(1).map_or(State::default(), |last| self.states[last][id - 1])
    }

    pub fn after(&self, row: usize, id: usize) -> State {
        self.states[row][id - 1]
    }

    /// The telegrams sent at a row.
    pub fn sent_at(&self, row: usize) -> impl Iterator<Item = &Telegram> {
        let first = self.telegrams.partition_point(|telegram| telegram.sent < row);
        self.telegrams[first..].iter().take_while(move |telegram| telegram.sent == row)
    }

    /// The rows at which it came, those undone left out.
    pub fn comes<'a>(&'a self, telegram: &'a Telegram) -> impl Iterator<Item = usize> + 'a {
        telegram.comes.iter().copied().filter(|row| !self.is_undone(*row))
    }
}
