//! What sequences of commands meet of ballots (document 02, U14): why each opening or message was taken or passed over, told
//! apart from the controller's own rules as far as what it shows allows.

use crate::ballot::{owner, BallotKind};
use crate::command::Command;
use crate::controller::{Answer, Controller};
use crate::records::ballot_message::BallotMessage;
use std::collections::BTreeMap;

/// Everything that the sequences should meet.
const ROWS: [&str; 48] = [
    "openings taken",
    "openings taken of one with an outcome",
    "openings at c = 0",
    "openings of one stopped or standing by",
    "openings of ballot 0",
    "openings of another's ballot",
    "openings again",
    "openings below the highest promise",
    "openings without a word put",
    "asks answered, nothing taken before",
    "asks answered, reporting a ballot taken",
    "asks answered, reporting that ballot itself",
    "asks below the highest promise",
    "asks again",
    "asks not from the owner",
    "puts taken",
    "puts below the highest promise",
    "puts again",
    "puts not from the owner",
    "asks and puts answered before stage 3",
    "asks and puts answered with an outcome",
    "promises counted",
    "promises that bring the own word put",
    "promises that bring a reported word put, the other one",
    "promises that bring a put which the owner does not take",
    "promises again, or after the put",
    "promises for a ballot never opened",
    "promises for another's ballot",
    "takens for an own ballot opened",
    "takens for an own ballot never opened",
    "takens for another's ballot",
    "at c = 0: 5",
    "at c = 0: 6",
    "at c = 0: 7",
    "at c = 0: 8",
    "to one stopped: 5",
    "to one stopped: 6",
    "to one stopped: 7",
    "to one stopped: 8",
    "to one standing by: 5",
    "to one standing by: 7",
    "of another order",
    "of another n or f",
    "to another controller",
    "from nobody of the lock",
    "from itself",
    "with last or word that does not suit the kind",
    "of ballot 0",
];

#[derive(Clone, Debug, Default)]
pub struct BallotCommands {
    counts: BTreeMap<String, u64>,
}

impl BallotCommands {
    /// Counts a command that was put to a controller. An error where it was taken and should be passed over, or did something
    /// though it was passed over.
    pub fn add(
        &mut self,
        command: &Command,
        before: &Controller,
        after: &Controller,
        answer: &Answer,
    ) -> Result<(), String> {
        if !answer.is_taken() && (after != before || !answer.is_silent()) {
            return Err(format!("{command:?} was not taken and did something"));
        }
        let hindrance = match command {
            Command::OpenBallot(ballot) => opening_hindrance(*ballot, before),
            Command::ReceiveBallot(message) => message_hindrance(message, before),
            _ if answer.ballots_sent.is_empty() => return Ok(()),
            _ => return Err(format!("{command:?} sent something of ballots")),
        };
        match (hindrance, answer.is_taken()) {
            (Some(reason), false) => self.meet(reason),
            (Some(reason), true) => return Err(format!("{command:?} was taken: {reason}")),
            (None, _) => match command {
                Command::ReceiveBallot(message) => self.add_message(message, before, after, answer),
                _ if !answer.is_taken() => return Err(format!("{command:?} was not taken")),
                _ => {
                    self.meet("openings taken".to_string());
                    if before.outcome().is_some() {
                        self.meet("openings taken of one with an outcome".to_string());
                    }
                }
            },
        }
        Ok(())
    }

    /// Name and count of everything that the sequences should meet.
    pub fn rows(&self) -> Vec<(String, u64)> {
        let count = |name: &str| self.counts.get(name).copied().unwrap_or(0);
        ROWS.map(|name| (name.to_string(), count(name))).to_vec()
    }

    fn meet(&mut self, name: String) {
        *self.counts.entry(name).or_default() += 1;
    }

    /// A message that nothing hinders but what was answered or counted already.
    fn add_message(
        &mut self,
        message: &BallotMessage,
        before: &Controller,
        after: &Controller,
        answer: &Answer,
    ) {
        let reported = answer.ballots_sent.first().map_or(0, |sending| sending.last);
        let name = match (message.kind, answer.is_taken()) {
            (BallotKind::Ask, true) if reported == message.ballot => {
                "asks answered, reporting that ballot itself"
            }
            (BallotKind::Ask, true) if reported != 0 => "asks answered, reporting a ballot taken",
            (BallotKind::Ask, true) => "asks answered, nothing taken before",
            (BallotKind::Ask, false) => "asks again",
            (BallotKind::Put, true) => "puts taken",
            (BallotKind::Put, false) => "puts again",
            (BallotKind::Promise, true) => return self.add_promise(after, answer),
            (BallotKind::Promise, false) => "promises again, or after the put",
            (BallotKind::Taken, _) => "takens for an own ballot opened",
        };
        self.meet(name.to_string());
        if answer.is_taken() && before.phase() != Some(3) {
            self.meet("asks and puts answered before stage 3".to_string());
        }
        if answer.is_taken() && before.outcome().is_some() {
            self.meet("asks and puts answered with an outcome".to_string());
        }
    }

    fn add_promise(&mut self, after: &Controller, answer: &Answer) {
        let Some(put) = answer.ballots_sent.first() else {
            return self.meet("promises counted".to_string());
        };
        let own = put.word == after.proposed();
        self.meet(if own {
            "promises that bring the own word put".to_string()
        } else {
            "promises that bring a reported word put, the other one".to_string()
        });
        if answer.taking.is_none() {
            self.meet("promises that bring a put which the owner does not take".to_string());
        }
    }
}

/// Why an opening is to be passed over.
fn opening_hindrance(ballot: u8, before: &Controller) -> Option<String> {
    if !before.is_running() {
        return Some("openings of one stopped or standing by".to_string());
    }
    let Some(part) = before.ballots() else {
        return Some("openings at c = 0".to_string());
    };
    let reasons = [
        (ballot == 0, "openings of ballot 0"),
        (
            owner(before.group(), ballot) != Some(before.id()),
            "openings of another's ballot",
        ),
        (part.opened().any(|own| own == ballot), "openings again"),
        (ballot < part.highest_promise(), "openings below the highest promise"),
        (before.proposed().is_none(), "openings without a word put"),
    ];
    first(&reasons)
}

/// Why a message is to be passed over, but for what was answered or counted already.
fn message_hindrance(message: &BallotMessage, before: &Controller) -> Option<String> {
    let number = message.kind.number();
    if before.is_stopped() {
        return Some(format!("to one stopped: {number}"));
    }
    if !before.is_running() {
        return Some(format!("to one standing by: {number}"));
    }
    let Some(part) = before.ballots() else {
        return Some(format!("at c = 0: {number}"));
    };
    let names = match message.kind {
        BallotKind::Ask => ["asks not from the owner", "asks below the highest promise"],
        BallotKind::Put => ["puts not from the owner", "puts below the highest promise"],
        BallotKind::Promise => ["promises for another's ballot", "promises for a ballot never opened"],
        BallotKind::Taken => ["takens for another's ballot", "takens for an own ballot never opened"],
    };
    let to_owner = matches!(message.kind, BallotKind::Promise | BallotKind::Taken);
    let owner = owner(before.group(), message.ballot);
    let right_end = owner == Some(if to_owner { message.to } else { message.from });
    let open = if to_owner {
        part.opened().any(|own| own == message.ballot)
    } else {
        message.ballot >= part.highest_promise()
    };
    let reasons = [
        (message.order != before.order(), "of another order"),
        (message.group != before.group(), "of another n or f"),
        (message.to != before.id(), "to another controller"),
        (!before.group().has(message.from), "from nobody of the lock"),
        (message.from == before.id(), "from itself"),
        (message.ballot == 0, "of ballot 0"),
        (!message.suits_kind(), "with last or word that does not suit the kind"),
        (!right_end, names[0]),
        (!open, names[1]),
    ];
    first(&reasons)
}

fn first(reasons: &[(bool, &str)]) -> Option<String> {
    let reason = reasons.iter().find(|(holds, _)| *holds);
    reason.map(|(_, name)| name.to_string())
}
