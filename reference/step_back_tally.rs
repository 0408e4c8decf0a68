//! What a set of schedules meets of steps back (document 02, U11). Each step back is held against the text: "The bench after
//! it is equal, the remembered events aside, in every field to the bench before that event", and against the claim that the
//! bench is the one after "the accepted events, without the undone ones and the steps back".

use crate::ballot::BallotKind;
use crate::bench::lock::Lock;
use crate::bench::Bench;
use crate::records::event::Event;
use crate::records::message::MessageKind;
use crate::session::{Session, MOST_REMEMBERED};
use crate::text::{sent_by_kind, MAX_SCHEDULE};
use std::collections::BTreeMap;

/// Everything that the schedules should meet.
const ROWS: [&str; 42] = [
    "steps back accepted",
    "of them at locks with c = 0",
    "of them at locks with c = 1",
    "of them at locks of more than 16 controllers",
    "orders undone",
    "of them with an order before",
    "votes undone",
    "votes delivered, undone",
    "acknowledgements delivered, undone",
    "help calls delivered, undone",
    "help answers delivered, undone",
    "bells undone",
    "arbiter's words undone, c = 0",
    "arbiter's words undone, c = 1",
    "stops undone",
    "saves undone",
    "restores undone",
    "ballots opened, undone",
    "asks delivered, undone",
    "promises delivered, undone",
    "puts delivered, undone",
    "takens delivered, undone",
    "events that changed nothing, undone",
    "gates set back",
    "outcomes taken back",
    "cards taken back",
    "telegrams of kinds 1 to 4 taken back",
    "words put, taken back",
    "words given, taken back",
    "takings taken back",
    "words chosen, taken back",
    "orders opened again by the number undone",
    "ballots opened again after they were undone",
    "refusals by 5",
    "refusals by 26, right after the lock",
    "refusals by 26, all undone",
    "refusals by 26, older events pushed out",
    "runs of one step back",
    "runs of 2 to 63 steps back",
    "runs of 64 steps back and more, all 64 remembered events undone",
    "runs of 65 steps back and more",
    "steps back with events refused since the last accepted one",
];

#[derive(Clone, Debug, Default)]
pub struct StepBackTally {
    counts: BTreeMap<&'static str, u64>,
}

/// A schedule while it is played.
#[derive(Default)]
struct Course {
    session: Session,
    /// The accepted events that are not undone, and the bench before each.
    left: Vec<(Event, Bench)>,
    /// What was undone since the last accepted event.
    undone: Vec<Event>,
    /// The length of the run of steps back so far, and how many of them were accepted.
    run: [usize; 2],
    refused_since: bool,
}

impl StepBackTally {
    /// Runs a schedule and counts; one that is too long is not run. An error says which step back came to something else.
    pub fn add(&mut self, schedule: &[u8]) -> Result<(), String> {
        if schedule.len() > MAX_SCHEDULE {
            return Ok(());
        }
        let mut course = Course::default();
        for (index, record) in schedule.chunks(Event::LENGTH).enumerate() {
            let Ok(event) = Event::read(record) else {
                continue;
            };
            self.add_record(&mut course, event)
                .map_err(|error| format!("record {index}: {error}"))?;
        }
        self.end_run(&mut course)
    }

    fn add_record(&mut self, course: &mut Course, event: Event) -> Result<(), String> {
        if event != Event::StepBack {
            self.end_run(course)?;
        }
        let before = course.session.bench().clone();
        let answer = course.session.step(&event);
        match event {
            Event::StepBack => self.add_step_back(course, &before, answer),
            event => {
                self.add_event(course, event, before, answer);
                Ok(())
            }
        }
    }

    /// Name and count of everything that the schedules should meet.
    pub fn rows(&self) -> Vec<(String, u64)> {
        let count = |name| self.counts.get(name).copied().unwrap_or(0);
        ROWS.map(|name| (name.to_string(), count(name))).to_vec()
    }

    fn meet(&mut self, name: &'static str) {
        debug_assert!(ROWS.contains(&name), "{name}");
        *self.counts.entry(name).or_default() += 1;
    }

    fn meet_if(&mut self, met: bool, name: &'static str) {
        if met {
            self.meet(name);
        }
    }

    fn add_event(&mut self, course: &mut Course, event: Event, before: Bench, answer: u8) {
        course.refused_since = answer != 0;
        if answer != 0 {
            return;
        }
        let again = course.undone.contains(&event);
        match event {
            Event::Order { .. } => self.meet_if(again, "orders opened again by the number undone"),
            Event::OpenBallot { .. } => {
                self.meet_if(again, "ballots opened again after they were undone");
            }
            _ => {}
        }
        course.undone.retain(|other| *other != event);
        course.left.push((event, before));
    }

    fn add_step_back(&mut self, course: &mut Course, before: &Bench, answer: u8) -> Result<(), String> {
        course.run[0] += 1;
        if answer != 0 {
            let at_lock = course.left.len() == 1 && course.undone.is_empty();
            self.meet(match (answer, course.left.len()) {
                (5, 0) => "refusals by 5",
                (26, 1) if at_lock => "refusals by 26, right after the lock",
                (26, 1) => "refusals by 26, all undone",
                (26, 2..) => "refusals by 26, older events pushed out",
                _ => return Err(format!("answered {answer}")),
            });
            return Ok(());
        }
        let Some((event, then)) = course.left.pop() else {
            return Err("nothing was accepted".to_string());
        };
        if *course.session.bench() != then {
            return Err(format!("{event:?} undone: another bench than before it"));
        }
        course.run[1] += 1;
        course.undone.push(event);
        self.meet_if(course.refused_since, "steps back with events refused since the last accepted one");
        course.refused_since = false;
        if let (Some(now), Some(then)) = (before.lock(), then.lock()) {
            self.add_undone(&event, now, then);
        }
        let [was, is] = [before, &then].map(sent_by_kind);
        self.meet_if((0..4).any(|kind| is[kind] < was[kind]), "telegrams of kinds 1 to 4 taken back");
        self.meet_if(*before == then, "events that changed nothing, undone");
        Ok(())
    }

    /// An event undone: the lock with it, and without.
    fn add_undone(&mut self, event: &Event, now: &Lock, then: &Lock) {
        self.meet("steps back accepted");
        self.meet(match now.has_ballots() {
            false => "of them at locks with c = 0",
            true => "of them at locks with c = 1",
        });
        self.meet_if(now.group().n > 16, "of them at locks of more than 16 controllers");
        self.meet_if(
            matches!(event, Event::Order { .. }) && then.is_order_open(),
            "of them with an order before",
        );
        self.meet(kind_undone(event, now.has_ballots()));
        let pairs = || now.controllers().iter().zip(then.controllers());
        self.meet_if(pairs().any(|(a, b)| a.position() != b.position()), "gates set back");
        let lost = |a: Option<_>, b: Option<_>| a.is_some() && b.is_none();
        self.meet_if(pairs().any(|(a, b)| lost(a.outcome(), b.outcome())), "outcomes taken back");
        let mut ids = now.group().ids();
        self.meet_if(ids.any(|id| now.checkpoint(id) != then.checkpoint(id)), "cards taken back");
        self.meet_if(then.proposals().len() < now.proposals().len(), "words put, taken back");
        self.meet_if(lost(now.decision(), then.decision()), "words given, taken back");
        self.meet_if(then.takings().len() < now.takings().len(), "takings taken back");
        let chosen = |lock: &Lock| lock.proposals().iter().any(|&word| lock.is_chosen(word));
        self.meet_if(chosen(now) && !chosen(then), "words chosen, taken back");
    }

    fn end_run(&mut self, course: &mut Course) -> Result<(), String> {
        let [length, accepted] = std::mem::take(&mut course.run);
        match length {
            0 => return Ok(()),
            1 => self.meet("runs of one step back"),
            2..=63 => self.meet("runs of 2 to 63 steps back"),
            _ => {
                let all = accepted == MOST_REMEMBERED;
                self.meet_if(all, "runs of 64 steps back and more, all 64 remembered events undone");
                self.meet_if(length > 64, "runs of 65 steps back and more");
            }
        }
        if accepted > MOST_REMEMBERED {
            return Err(format!("{accepted} events undone in one run"));
        }
        match course.is_after_left() {
            true => Ok(()),
            false => Err("another bench than after the events left".to_string()),
        }
    }
}

impl Course {
    /// "read over the accepted events, without the undone ones and the steps back"
    fn is_after_left(&self) -> bool {
        let mut bench = Bench::default();
        let accepted = self.left.iter().all(|(event, _)| bench.step(event) == 0);
        accepted && bench == *self.session.bench()
    }
}

fn kind_undone(event: &Event, has_ballots: bool) -> &'static str {
    match *event {
        Event::Lock { .. } | Event::StepBack => unreachable!("neither is undone"),
        Event::Order { .. } => "orders undone",
        Event::Vote { .. } => "votes undone",
        Event::Deliver { kind, .. } => match kind {
            MessageKind::Vote => "votes delivered, undone",
            MessageKind::Ack => "acknowledgements delivered, undone",
            MessageKind::Help => "help calls delivered, undone",
            MessageKind::Helped => "help answers delivered, undone",
        },
        Event::Timeout { .. } => "bells undone",
        Event::Decision { .. } if has_ballots => "arbiter's words undone, c = 1",
        Event::Decision { .. } => "arbiter's words undone, c = 0",
        Event::Stop { .. } => "stops undone",
        Event::Save { .. } => "saves undone",
        Event::Restore { .. } => "restores undone",
        Event::OpenBallot { .. } => "ballots opened, undone",
        Event::DeliverBallot { kind, .. } => match kind {
            BallotKind::Ask => "asks delivered, undone",
            BallotKind::Promise => "promises delivered, undone",
            BallotKind::Put => "puts delivered, undone",
            BallotKind::Taken => "takens delivered, undone",
        },
    }
}
