//! Document 02, U4: help calls that come before stage 3, counted, and held against document 01.

use crate::bench::lock::Lock;
use crate::bench::Bench;
use crate::members::Members;
use crate::records::event::Event;
use crate::records::message::MessageKind;
use crate::text::{bench_state, MAX_SCHEDULE};

/// What a set of schedules meets of kept calls.
#[derive(Clone, Debug, Default)]
pub struct KeptCalls {
    kept: [u64; 3],
    come_again: u64,
    answering: u64,
    answering_several: u64,
    answers: u64,
    lost: u64,
}

impl KeptCalls {
    /// Runs a schedule twice: as it is, and as document 01 has it, where a call before stage 3 is passed over (so it may
    /// as well not come) and each kept call comes once more right after its receiver's second timeout. Both must give
    /// the same answers and the same bench. A schedule that is too long is not run.
    pub fn add(&mut self, schedule: &[u8]) -> Result<(), String> {
        if schedule.len() > MAX_SCHEDULE {
            return Ok(());
        }
        let mut bench = Bench::default();
        let mut plain = Bench::default();
        for record in schedule.chunks(Event::LENGTH) {
            let event = Event::read(record).ok();
            let before = event.and_then(|event| Touched::by(&event, &bench));
            let answer = bench.step_record(record);
            let early = before.as_ref().is_some_and(Touched::is_early_call);
            let answer_there = if early {
                plain.clone().step_record(record)
            } else {
                plain.step_record(record)
            };
            if answer != answer_there {
                return Err(format!(
                    "{event:?}: {answer}, by document 01 {answer_there}"
                ));
            }
            if let (0, Some(before)) = (answer, before) {
                self.count(&before, &bench);
                before.deliver_again(&mut plain)?;
                if before.is_second_timeout() {
                    same(&bench, &plain)?;
                }
            }
        }
        same(&bench, &plain)
    }

    fn count(&mut self, before: &Touched, after: &Bench) {
        if before.is_early_call() {
            let kept = after
                .lock()
                .map_or(Members::NONE, |lock| kept(lock, before.id));
            match before.phase {
                Some(phase) if kept != before.kept => self.kept[usize::from(phase)] += 1,
                _ => self.come_again += 1,
            }
        }
        let count = u64::from(before.kept.count());
        if before.is_second_timeout() && count > 0 {
            self.answering += 1;
            self.answering_several += u64::from(count > 1);
            self.answers += count;
        }
        if matches!(before.event, Event::Stop { .. }) {
            self.lost += count;
        }
    }

    /// Name and count of everything that the schedules should meet.
    pub fn rows(&self) -> Vec<(&'static str, u64)> {
        let [stage_0, stage_1, stage_2] = self.kept;
        vec![
            ("calls kept at stage 0", stage_0),
            ("calls kept at stage 1", stage_1),
            ("calls kept at stage 2", stage_2),
            ("kept calls that came again before stage 3", self.come_again),
            ("second bells with kept calls", self.answering),
            ("of them with more than one", self.answering_several),
            ("kept calls answered", self.answers),
            ("kept calls lost at a stop", self.lost),
        ]
    }
}

/// The controller that a delivery, a timeout or a stop concerns, as it was before.
struct Touched {
    event: Event,
    id: u8,
    phase: Option<u8>,
    kept: Members,
}

impl Touched {
    fn by(event: &Event, bench: &Bench) -> Option<Touched> {
        let lock = bench.lock()?;
        let id = match *event {
            Event::Deliver { to, .. } => to,
            Event::Timeout { id } | Event::Stop { id } => id,
            _ => return None,
        };
        lock.group().has(id).then(|| Touched {
            event: *event,
            id,
            phase: lock.controller(id).phase(),
            kept: kept(lock, id),
        })
    }

    fn is_early_call(&self) -> bool {
        let call = matches!(self.event, Event::Deliver { kind, .. } if kind == MessageKind::Help);
        call && matches!(self.phase, Some(0..=2))
    }

    fn is_second_timeout(&self) -> bool {
        matches!(self.event, Event::Timeout { .. }) && self.phase == Some(2)
    }

    /// Each kept call once more, in rising order of caller.
    fn deliver_again(&self, plain: &mut Bench) -> Result<(), String> {
        if !self.is_second_timeout() {
            return Ok(());
        }
        for from in self.kept.iter() {
            let kind = MessageKind::Help;
            let answer = plain.step(&Event::Deliver {
                from,
                to: self.id,
                kind,
            });
            if answer != 0 {
                return Err(format!("the call of {from} to {} again: {answer}", self.id));
            }
        }
        Ok(())
    }
}

fn kept(lock: &Lock, id: u8) -> Members {
    lock.controller(id).kept_calls()
}

/// What is printed, the telegrams in the sequence of their sending, the words put.
fn same(bench: &Bench, plain: &Bench) -> Result<(), String> {
    let shown = [bench, plain].map(|b| {
        let lock = b.lock();
        (
            bench_state(b),
            lock.map_or(&[][..], Lock::sent).to_vec(),
            lock.map_or(&[][..], Lock::proposals).to_vec(),
        )
    });
    if shown[0] == shown[1] {
        return Ok(());
    }
    Err(format!("{}by document 01\n{}", shown[0].0, shown[1].0))
}
