//! Document 02, U5: when the premises of "every running gate hears" are met at a moment of an order.

use crate::bench::lock::Lock;
use crate::controller::Controller;
use crate::members::Members;
use crate::records::event::Event;
use crate::records::message::{Message, MessageKind};

/// The accepted events of one order, as far as the premises ask of them.
#[derive(Clone, Debug, Default)]
pub struct HearingLog {
    delivered: Vec<(MessageKind, u8, u8)>,
    put: Members,
    given: Members,
    /// How many words were put in the order.
    words: usize,
}

impl HearingLog {
    /// Takes an accepted event of the order, with the lock as it is after it.
    pub fn add(&mut self, event: &Event, lock: &Lock) {
        let id = match *event {
            Event::Deliver { from, to, kind } => {
                self.delivered.push((kind, from, to));
                to
            }
            Event::Decision { id, .. } => {
                self.given = self.given.union(Members::only(id));
                id
            }
            Event::Timeout { id } => id,
            _ => return,
        };
        // Whoever an event concerns put the word that it brought.
        let words = lock.proposals().len();
        if words > self.words {
            self.put = self.put.union(Members::only(id));
        }
        self.words = words;
    }

    /// "in an open order with at most f controllers stopped or standing by, every running one at stage 3, every telegram sent
    /// to a running controller delivered at least one time, and the arbiter's answer given to every running controller that
    /// put a word"
    pub fn premises_met(&self, lock: &Lock) -> bool {
        let controllers = lock.controllers();
        let down = controllers.iter().filter(|c| !c.is_running()).count();
        let mut running = controllers.iter().filter(|c| c.is_running());
        let arrived = |message: &Message| {
            let Message { kind, from, to, .. } = *message;
            self.delivered.contains(&(kind, from, to))
        };
        let mut to_running = lock
            .sent()
            .iter()
            .filter(|message| lock.controller(message.to).is_running());
        lock.is_order_open()
            && down <= usize::from(lock.group().f)
            && running.all(|c| c.phase() == Some(3) && self.is_answered(c))
            && to_running.all(arrived)
    }

    fn is_answered(&self, controller: &Controller) -> bool {
        let id = controller.id();
        !self.put.contains(id) || self.given.contains(id)
    }
}

/// "each running controller has an outcome"
pub fn all_hear(lock: &Lock) -> bool {
    let mut running = lock.controllers().iter().filter(|c| c.is_running());
    running.all(|c| c.outcome().is_some())
}
