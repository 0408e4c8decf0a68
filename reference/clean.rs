//! Document 01, "The words of demand 3": when an order is clean.

use crate::group::Group;
use crate::members::Members;
use crate::records::event::Event;
use crate::records::message::MessageKind;

/// The accepted events of one order, as far as being clean asks of them.
#[derive(Clone, Debug)]
pub struct OrderLog {
    group: Group,
    stopped: bool,
    voted: Members,
    willing: Members,
    delivered: Vec<(MessageKind, u8, u8)>,
    timeouts: Vec<u8>,
    /// Whether the votes were in before the order's first timeout, once that came.
    votes_in_time: Option<bool>,
    /// Whether the acknowledgements were in before the first second timeout, once that came.
    acks_in_time: Option<bool>,
}

impl OrderLog {
    pub fn new(group: Group) -> OrderLog {
        OrderLog {
            group,
            stopped: false,
            voted: Members::NONE,
            willing: Members::NONE,
            delivered: Vec::new(),
            timeouts: Vec::new(),
            votes_in_time: None,
            acks_in_time: None,
        }
    }

    /// Takes an accepted event of the order; answers whether it was a second timeout.
    pub fn add(&mut self, event: &Event) -> bool {
        match *event {
            Event::Vote { id, willing, .. } => {
                self.voted = self.voted.union(Members::only(id));
                if willing {
                    self.willing = self.willing.union(Members::only(id));
                }
            }
            Event::Deliver { from, to, kind } => self.delivered.push((kind, from, to)),
            Event::Stop { .. } => self.stopped = true,
            Event::Timeout { id } => return self.add_timeout(id),
            _ => {}
        }
        false
    }

    /// "A second bell is the second accepted bell in the order of one of 1 to f + 1, the first of any other."
    fn add_timeout(&mut self, id: u8) -> bool {
        // "every controller's vote was accepted, and every vote telegram of the Vote rule delivered, before the
        // order's first accepted bell"
        if self.votes_in_time.is_none() {
            let all_voted = self.voted == self.group.everyone();
            self.votes_in_time = Some(all_voted && self.all_delivered(MessageKind::Vote));
        }
        let is_second = !self.group.has_two_timeouts(id) || self.timeouts.contains(&id);
        self.timeouts.push(id);
        // "every acknowledgement, of 1 to f to all others and of f + 1 to 1 to f, was delivered before the first of its
        // second bells"
        if is_second && self.acks_in_time.is_none() {
            self.acks_in_time = Some(self.all_delivered(MessageKind::Ack));
        }
        is_second
    }

    fn all_delivered(&self, kind: MessageKind) -> bool {
        self.group.ids().all(|from| {
            let receivers = self.group.receivers(kind, from);
            let arrived = |to| self.delivered.contains(&(kind, from, to));
            receivers.iter().all(arrived)
        })
    }

    /// "An order is *clean* at a moment of it when no stop in it was accepted up to then; [...]". Asked right after a
    /// second timeout.
    pub fn is_clean(&self) -> bool {
        !self.stopped && self.votes_in_time == Some(true) && self.acks_in_time == Some(true)
    }

    /// "All are willing when each of those votes has b = 1."
    pub fn all_willing(&self) -> bool {
        self.willing == self.group.everyone()
    }
}
