//! The controllers of one lock. A backup is a "holder" of document 01.

use crate::members::Members;
use crate::message_kind::MessageKind;

/// Document 02, U12: "n goes up to 32".
pub const MAX_CONTROLLERS: u8 = 32;

#[derive(Clone, Copy, PartialEq, Eq, Debug)]
pub struct Group {
    pub n: u8,
    pub f: u8,
}

impl Group {
    /// "n from 2 to 16; f from 1 to n − 1", with U12 to 32
    pub fn in_range(self) -> bool {
        (2..=MAX_CONTROLLERS).contains(&self.n) && (1..self.n).contains(&self.f)
    }

    /// "n controllers, numbered 1 to n"
    pub fn has(self, id: u8) -> bool {
        (1..=self.n).contains(&id)
    }

    pub fn ids(self) -> impl Iterator<Item = u8> {
        1..=self.n
    }

    pub fn everyone(self) -> Members {
        Members::range(1..=self.n)
    }

    /// "Controllers 1 to f are holders"
    pub fn backups(self) -> Members {
        Members::range(1..=self.f)
    }

    pub fn is_backup(self, id: u8) -> bool {
        id <= self.f
    }

    /// "f + 1 is the second holder"
    pub fn second_backup(self) -> u8 {
        self.f + 1
    }

    /// Whether the controller has two timeouts in an order: "f + 2 to n have just this one".
    pub fn has_two_timeouts(self, id: u8) -> bool {
        id <= self.second_backup()
    }

    /// Whom a controller sends a kind to, by its rules.
    pub fn receivers(self, kind: MessageKind, from: u8) -> Members {
        let second_backup = self.second_backup();
        let receivers = match kind {
            // "It sends a vote telegram to every other controller of 1 to f; a holder also sends one to f + 1."
            MessageKind::Vote if self.is_backup(from) => Members::range(1..=second_backup),
            MessageKind::Vote => self.backups(),
            // "A holder sends it to all others [...] Controller f + 1 sends it to the holders only"
            MessageKind::Ack if self.is_backup(from) => self.everyone(),
            MessageKind::Ack if from == second_backup => self.backups(),
            MessageKind::Ack => Members::NONE,
            // "sends help calls to all others of f + 1 to n"; answers go the same ways back. A backup always holds
            // its own acknowledgement and so never waits.
            MessageKind::Help | MessageKind::Helped if self.is_backup(from) => Members::NONE,
            MessageKind::Help | MessageKind::Helped => Members::range(second_backup..=self.n),
        };
        receivers.without(from)
    }

    /// Question 10: "May the kind travel so, by the rules above?"
    pub fn permits(self, kind: MessageKind, from: u8, to: u8) -> bool {
        self.receivers(kind, from).contains(to)
    }
}
