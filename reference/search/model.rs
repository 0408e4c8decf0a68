//! The rules of ballots on few controllers, written once more and small: for the search, and with faults to try it on.

use crate::vote_set::Verdict;

pub const MAX_CONTROLLERS: usize = 4;
pub const MAX_BALLOTS: usize = 4;

/// A rule broken.
#[derive(Clone, Copy, PartialEq, Eq, Debug)]
pub enum Fault {
    /// A taking does not raise the highest promise.
    TakingDoesNotRaise,
    /// A promise does not raise it.
    PromiseDoesNotRaise,
    /// A put below the highest promise is taken.
    TakesBelow,
    /// The owner takes its own put even below its highest promise.
    OwnerTakesBelow,
    /// n/2, rounded down, is a majority.
    HalfRoundedDown,
    /// n/2 is a majority.
    HalfSuffices,
    /// The owner puts its own word although one was reported.
    OwnWord,
    /// The word of the lowest ballot reported.
    LowestReported,
    /// The owner's promise to itself does not report what it had taken.
    OwnPromiseReportsNothing,
}

/// Who takes part: the words put by 1 to n, and the ballots that may be opened, in rising order.
#[derive(Clone, Debug)]
pub struct Site {
    pub words: Vec<Verdict>,
    pub ballots: Vec<u8>,
    /// Whether controllers may be stopped.
    pub stops: bool,
    pub fault: Option<Fault>,
}

impl Site {
    pub fn n(&self) -> usize {
        self.words.len()
    }

    /// The place of the owner, from 0: "ballot b belongs to controller 1 + (b − 1) mod n".
    pub fn owner(&self, place: usize) -> usize {
        (usize::from(self.ballots[place]) - 1) % self.n()
    }

    fn has(&self, fault: Fault) -> bool {
        self.fault == Some(fault)
    }

    /// "more than n/2"
    fn is_majority(&self, count: usize) -> bool {
        if self.has(Fault::HalfRoundedDown) {
            count >= self.n() / 2
        } else if self.has(Fault::HalfSuffices) {
            2 * count >= self.n()
        } else {
            2 * count > self.n()
        }
    }
}

/// Ballots by their place in the site's list, controllers from 0.
#[derive(Clone, Copy, PartialEq, Eq, Debug)]
pub enum Action {
    Open { ballot: usize },
    Ask { ballot: usize, to: usize },
    Promise { ballot: usize, from: usize },
    Put { ballot: usize, to: usize },
    Stop { id: usize },
}

/// A ballot's number in the state is its place + 1; 0 is none.
#[derive(Clone, Copy, PartialEq, Eq, Debug, Default)]
pub struct Acceptor {
    pub promise: u8,
    pub last: u8,
    pub is_stopped: bool,
}

#[derive(Clone, Copy, PartialEq, Eq, Debug, Default)]
pub struct Ballot {
    pub is_opened: bool,
    /// What each promise reports, where it was given: the owner's own too.
    pub promises: [Option<u8>; MAX_CONTROLLERS],
    /// Whose promises the owner counts.
    pub counted: [bool; MAX_CONTROLLERS],
    pub put: Option<Verdict>,
    pub taken: [bool; MAX_CONTROLLERS],
}

#[derive(Clone, Copy, PartialEq, Eq, Debug, Default)]
pub struct State {
    pub acceptors: [Acceptor; MAX_CONTROLLERS],
    pub ballots: [Ballot; MAX_BALLOTS],
}

impl State {
    /// The actions that change something.
    pub fn actions(&self, site: &Site) -> Vec<Action> {
        let ids = 0..site.n();
        let mut actions = Vec::new();
        for ballot in 0..site.ballots.len() {
            actions.push(Action::Open { ballot });
            for id in ids.clone() {
                actions.push(Action::Ask { ballot, to: id });
                actions.push(Action::Promise { ballot, from: id });
                actions.push(Action::Put { ballot, to: id });
            }
        }
        actions.extend(ids.map(|id| Action::Stop { id }));
        actions.retain(|&action| self.is_possible(site, action));
        actions
    }

    pub fn is_possible(&self, site: &Site, action: Action) -> bool {
        let runs = |id: usize| !self.acceptors[id].is_stopped;
        let reaches = |id: usize, ballot: usize| usize::from(self.acceptors[id].promise) <= ballot + 1;
        match action {
            Action::Open { ballot } => {
                let owner = site.owner(ballot);
                runs(owner) && reaches(owner, ballot) && !self.ballots[ballot].is_opened
            }
            Action::Ask { ballot, to } => {
                let Ballot {
                    is_opened, promises, ..
                } = self.ballots[ballot];
                is_opened
                    && to != site.owner(ballot)
                    && runs(to)
                    && reaches(to, ballot)
                    && promises[to].is_none()
            }
            Action::Promise { ballot, from } => {
                let Ballot {
                    promises,
                    counted,
                    put,
                    ..
                } = self.ballots[ballot];
                let owner = site.owner(ballot);
                promises[from].is_some() && !counted[from] && put.is_none() && runs(owner)
            }
            Action::Put { ballot, to } => {
                let Ballot { put, taken, .. } = self.ballots[ballot];
                let reached = reaches(to, ballot) || site.has(Fault::TakesBelow);
                put.is_some() && to != site.owner(ballot) && runs(to) && reached && !taken[to]
            }
            Action::Stop { id } => site.stops && runs(id),
        }
    }

    /// The state after an action that is possible.
    pub fn after(&self, site: &Site, action: Action) -> State {
        let mut next = *self;
        match action {
            Action::Open { ballot } => {
                let owner = site.owner(ballot);
                next.ballots[ballot].is_opened = true;
                next.promise(site, owner, ballot);
                if site.has(Fault::OwnPromiseReportsNothing) {
                    next.ballots[ballot].promises[owner] = Some(0);
                }
                next.count(site, owner, ballot);
            }
            Action::Ask { ballot, to } => next.promise(site, to, ballot),
            Action::Promise { ballot, from } => next.count(site, from, ballot),
            Action::Put { ballot, to } => next.take(site, to, ballot),
            Action::Stop { id } => next.acceptors[id].is_stopped = true,
        }
        next
    }

    fn promise(&mut self, site: &Site, id: usize, ballot: usize) {
        let acceptor = &mut self.acceptors[id];
        self.ballots[ballot].promises[id] = Some(acceptor.last);
        if !site.has(Fault::PromiseDoesNotRaise) {
            acceptor.promise = ballot as u8 + 1;
        }
    }

    fn count(&mut self, site: &Site, from: usize, ballot: usize) {
        self.ballots[ballot].counted[from] = true;
        let promises = self.ballots[ballot].counted.iter().filter(|&&counted| counted);
        if !site.is_majority(promises.count()) {
            return;
        }
        let owner = site.owner(ballot);
        self.ballots[ballot].put = Some(self.word_to_put(site, owner, ballot));
        let reaches = usize::from(self.acceptors[owner].promise) <= ballot + 1;
        if reaches || site.has(Fault::OwnerTakesBelow) || site.has(Fault::TakesBelow) {
            self.take(site, owner, ballot);
        }
    }

    fn word_to_put(&self, site: &Site, owner: usize, ballot: usize) -> Verdict {
        let Ballot {
            promises, counted, ..
        } = self.ballots[ballot];
        let counted = promises.iter().zip(counted).filter(|(_, counted)| *counted);
        let reported = counted.filter_map(|(last, _)| last.filter(|&last| last > 0));
        let told = if site.has(Fault::LowestReported) {
            reported.min()
        } else {
            reported.max()
        };
        let word_of = |last: u8| self.ballots[usize::from(last) - 1].put;
        match told.and_then(word_of) {
            Some(word) if !site.has(Fault::OwnWord) => word,
            _ => site.words[owner],
        }
    }

    fn take(&mut self, site: &Site, id: usize, ballot: usize) {
        let acceptor = &mut self.acceptors[id];
        self.ballots[ballot].taken[id] = true;
        acceptor.last = ballot as u8 + 1;
        if !site.has(Fault::TakingDoesNotRaise) {
            acceptor.promise = ballot as u8 + 1;
        }
    }

    /// "whether more than n/2 have taken the word in one ballot"
    pub fn is_chosen(&self, site: &Site, word: Verdict) -> bool {
        self.ballots.iter().any(|ballot| {
            let takers = ballot.taken.iter().filter(|&&taken| taken).count();
            ballot.put == Some(word) && site.is_majority(takers)
        })
    }

    /// Whether two ballots have takers of different words.
    pub fn is_contested(&self, site: &Site) -> bool {
        let ballots = &self.ballots[..site.ballots.len()];
        let is_taken = |ballot: &&Ballot| ballot.taken.contains(&true);
        let mut words = ballots.iter().filter(is_taken).filter_map(|ballot| ballot.put);
        let first = words.next();
        words.any(|word| Some(word) != first)
    }

    /// The state as one number: no two states of a site have the same.
    pub fn key(&self, site: &Site) -> u128 {
        let mut key = 0;
        let mut add = |values: u128, value: u128| key = key * values + value;
        let lasts = MAX_BALLOTS as u128 + 1;
        for acceptor in &self.acceptors[..site.n()] {
            add(lasts, acceptor.promise.into());
            add(lasts, acceptor.last.into());
            add(2, acceptor.is_stopped.into());
        }
        for ballot in &self.ballots[..site.ballots.len()] {
            add(2, ballot.is_opened.into());
            add(3, ballot.put.map_or(0, |word| 1 + word as u128));
            for id in 0..site.n() {
                add(lasts + 1, ballot.promises[id].map_or(0, |last| 1 + u128::from(last)));
                add(2, ballot.counted[id].into());
                add(2, ballot.taken[id].into());
            }
        }
        key
    }
}
