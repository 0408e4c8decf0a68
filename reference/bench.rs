//! The bench: the events put to it, their questions in sequence, and the run over a schedule.

pub mod lock;

use crate::ballot::{self, BallotKind};
use crate::controller::{Controller, Reception};
use crate::group::Group;
use crate::questions::{
    answer, ask, controller_in_range, group_in_range, order_in_range, position_in_range,
    route_in_range,
};
use crate::records::event::Event;
use crate::records::message::MessageKind;
use crate::vote_set::Verdict;
use crate::session::Session;
use lock::Lock;

/// "a new bench, without lock, order, telegrams, words or cards"
#[derive(Clone, PartialEq, Eq, Debug, Default)]
pub struct Bench {
    lock: Option<Lock>,
}

/// "The records follow one another with nothing between them." Each gets its answer. A schedule without steps back needs no
/// memory.
pub fn run(schedule: &[u8]) -> (Vec<u8>, Bench) {
    let records = || schedule.chunks(Event::LENGTH);
    if records().any(|record| Event::read(record) == Ok(Event::StepBack)) {
        let mut session = Session::default();
        let answers = records().map(|record| session.step_record(record)).collect();
        return (answers, session.into_bench());
    }
    let mut bench = Bench::default();
    let answers = records().map(|record| bench.step_record(record)).collect();
    (answers, bench)
}

impl Bench {
    pub fn lock(&self) -> Option<&Lock> {
        self.lock.as_ref()
    }

    /// Document 02, U9: "how many running controllers lack an outcome", counted over all of them.
    pub fn open_gates(&self) -> u8 {
        let controllers = self.lock().map_or(&[][..], Lock::controllers);
        let is_open = |c: &&Controller| c.is_running() && c.outcome().is_none();
        controllers.iter().filter(is_open).count() as u8
    }

    /// "a record that reading refuses leaves the bench as it is"
    pub fn step_record(&mut self, record: &[u8]) -> u8 {
        match Event::read(record) {
            Ok(event) => self.step(&event),
            Err(number) => number,
        }
    }

    /// Answers 0, or the question refused: "a refused event leaves the bench untouched".
    pub fn step(&mut self, event: &Event) -> u8 {
        answer(match *event {
            Event::Lock { group, ballots } => self.set_up(group, ballots),
            Event::Order { number } => self.order(number),
            Event::Vote {
                id,
                willing,
                target,
            } => self.vote(id, willing, target),
            Event::Deliver { from, to, kind } => self.deliver(from, to, kind),
            Event::Timeout { id } => self.timeout(id),
            Event::Decision { id, verdict } => self.decide(id, verdict),
            Event::Stop { id } => self.stop(id),
            Event::Save { id } => self.save(id),
            Event::Restore { id } => self.restore(id),
            Event::DeliverBallot {
                from,
                to,
                kind,
                ballot,
            } => self.deliver_ballot(from, to, kind, ballot),
            Event::OpenBallot { id, ballot } => self.open_ballot(id, ballot),
            Event::StepBack => self.step_back(),
        })
    }

    /// "After the lock event every controller is running at stage 0, without outcome or card."
    fn set_up(&mut self, group: Group, has_ballots: bool) -> Result<(), u8> {
        group_in_range(group)?;
        // 6. "Is no lock set up yet?"
        ask(6, self.lock.is_none())?;
        self.lock = Some(Lock::new(group, has_ballots));
        Ok(())
    }

    fn order(&mut self, number: u32) -> Result<(), u8> {
        let lock = self.locked()?;
        order_in_range(number)?;
        // 12. "Is the order number above the last one?"
        ask(12, number > lock.last_order())?;
        // 13. "Has every running controller an outcome, or has no order been opened yet?"
        let ended = |c: &Controller| !c.is_running() || c.outcome().is_some();
        ask(
            13,
            !lock.is_order_open() || lock.controllers().iter().all(ended),
        )?;
        lock.open(number);
        Ok(())
    }

    fn vote(&mut self, id: u8, willing: bool, target: i32) -> Result<(), u8> {
        let lock = self.locked()?;
        controller_in_range(lock.group(), id)?;
        position_in_range(target)?;
        ask_order_open(lock)?;
        let controller = lock.controller_mut(id);
        ask_running(controller)?;
        ask(16, controller.phase() == Some(0))?;
        let answer = controller.vote(willing, target);
        lock.note(id, answer);
        Ok(())
    }

    fn deliver(&mut self, from: u8, to: u8, kind: MessageKind) -> Result<(), u8> {
        let lock = self.locked()?;
        route_in_range(lock.group(), from, to)?;
        ask(10, lock.group().permits(kind, from, to))?;
        ask_order_open(lock)?;
        ask_running(lock.controller(to))?;
        // 17. "Was that telegram sent in this order? It may be delivered any number of times."
        let message = lock.message(kind, from, to).ok_or(17)?;
        let answer = lock.controller_mut(to).receive(&message);
        // "Refused by the controller: 24, [...] last of all questions."
        ask(24, answer.reception != Reception::Contradicted)?;
        lock.note(to, answer);
        Ok(())
    }

    fn timeout(&mut self, id: u8) -> Result<(), u8> {
        let lock = self.locked()?;
        controller_in_range(lock.group(), id)?;
        ask_order_open(lock)?;
        let controller = lock.controller_mut(id);
        ask_running(controller)?;
        ask(16, matches!(controller.phase(), Some(1 | 2)))?;
        let answer = controller.timeout();
        lock.note(id, answer);
        Ok(())
    }

    fn decide(&mut self, id: u8, verdict: Verdict) -> Result<(), u8> {
        let lock = self.locked()?;
        controller_in_range(lock.group(), id)?;
        ask_order_open(lock)?;
        let controller = lock.controller(id);
        ask_not_stopped(controller)?;
        // 16. "arbiter 3, if running"
        ask(16, controller.phase().is_none_or(|phase| phase == 3))?;
        ask(18, may_be_given(lock, verdict))?;
        lock.give(verdict);
        let answer = lock.controller_mut(id).decide(verdict);
        lock.note(id, answer);
        Ok(())
    }

    fn stop(&mut self, id: u8) -> Result<(), u8> {
        let lock = self.locked()?;
        controller_in_range(lock.group(), id)?;
        ask_order_open(lock)?;
        let controller = lock.controller_mut(id);
        ask_not_stopped(controller)?;
        controller.stop();
        Ok(())
    }

    /// "Save makes the card; the bench keeps the newest per controller."
    fn save(&mut self, id: u8) -> Result<(), u8> {
        let lock = self.locked()?;
        controller_in_range(lock.group(), id)?;
        ask_order_open(lock)?;
        let controller = lock.controller(id);
        ask_not_stopped(controller)?;
        let checkpoint = controller.save();
        lock.keep_checkpoint(id, checkpoint);
        Ok(())
    }

    fn restore(&mut self, id: u8) -> Result<(), u8> {
        let lock = self.locked()?;
        controller_in_range(lock.group(), id)?;
        ask_order_open(lock)?;
        ask(15, lock.controller(id).is_stopped())?;
        // 19. "Has the controller a card?"
        let checkpoint = lock.checkpoint(id).ok_or(19)?;
        lock.controller_mut(id).restore(&checkpoint);
        Ok(())
    }

    /// Document 02, U14: "Event kind 10 (a, value = b ..) lets the owner, running and having put a word, open each of its
    /// ballots once an order".
    fn open_ballot(&mut self, id: u8, number: u32) -> Result<(), u8> {
        let lock = self.locked()?;
        controller_in_range(lock.group(), id)?;
        ask_order_open(lock)?;
        let controller = lock.controller(id);
        ask_running(controller)?;
        // 28. "a ballot outside 1 to 255, or one to open that is not the controller's, was opened or is below its highest
        // promise"
        let ballot = ballot::from_number(number).ok_or(28)?;
        let is_own = ballot::owner(lock.group(), ballot) == Some(id);
        let may_open = controller.ballots().is_none_or(|own| own.may_open(ballot));
        ask(28, is_own && may_open)?;
        // 29. "a ballot to open at a lock with c = 0 or by a controller with no word put"
        ask(29, lock.has_ballots() && controller.proposed().is_some())?;
        let answer = lock.controller_mut(id).open_ballot(ballot);
        lock.note(id, answer);
        Ok(())
    }

    /// Question 10 refuses none: these kinds "go between any two".
    fn deliver_ballot(
        &mut self,
        from: u8,
        to: u8,
        kind: BallotKind,
        number: u32,
    ) -> Result<(), u8> {
        let lock = self.locked()?;
        route_in_range(lock.group(), from, to)?;
        ask_order_open(lock)?;
        ask_running(lock.controller(to))?;
        let ballot = ballot::from_number(number).ok_or(28)?;
        let message = lock.ballot_message(kind, from, to, ballot).ok_or(17)?;
        let answer = lock.controller_mut(to).receive_ballot(&message);
        lock.note(to, answer);
        Ok(())
    }

    /// A bench alone remembers nothing: 26, "nothing to undo; after question 5". What remembers is a session.
    fn step_back(&mut self) -> Result<(), u8> {
        self.locked()?;
        Err(26)
    }

    /// 5. "Is a lock set up? (every event but lock)"
    fn locked(&mut self) -> Result<&mut Lock, u8> {
        self.lock.as_mut().ok_or(5)
    }
}

/// 18. "Was the word put in this order, and no other given?" At a lock with ballots it "asks instead whether more than n/2
/// have taken the word in one ballot".
fn may_be_given(lock: &Lock, verdict: Verdict) -> bool {
    if lock.has_ballots() {
        return lock.is_chosen(verdict);
    }
    let no_other_given = lock.decision().is_none_or(|given| given == verdict);
    lock.is_proposed(verdict) && no_other_given
}

/// 14. "Is an order open? (kinds 2 to 8)", and 10 with U14.
fn ask_order_open(lock: &Lock) -> Result<(), u8> {
    ask(14, lock.is_order_open())
}

/// 15. "Vote, bell, receiver of a delivery: running."
fn ask_running(controller: &Controller) -> Result<(), u8> {
    ask(15, controller.is_running())
}

/// 15. "Arbiter, stop, save: running or standing by."
fn ask_not_stopped(controller: &Controller) -> Result<(), u8> {
    ask(15, !controller.is_stopped())
}
