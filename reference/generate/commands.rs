//! Sequences of commands to one controller, led by its state so that they reach deep into an order.

mod ballots;
mod messages;

use super::choices;
use crate::command::Command;
use crate::controller::{Controller, Reception};
use crate::group::{Group, MAX_CONTROLLERS};
use crate::members::Members;
use crate::records::message::{Message, MessageKind};
use crate::rng::Rng;
use ballots::BallotPlan;

/// What the second timeout should lead to.
#[derive(Clone, Copy, PartialEq, Eq)]
enum Goal {
    Outcome,
    Proposal,
    Waiting,
}

/// How the others behave in one order.
struct Plan {
    goal: Goal,
    unwilling: Members,
    /// Out of a hundred sheets, how many have somebody else's word turned round.
    contrary: usize,
    /// Out of a hundred commands, how many are out of turn.
    stray: usize,
}

struct Script<'a> {
    rng: &'a mut Rng,
    controller: Controller,
    commands: Vec<Command>,
    plan: Plan,
    /// The senders heard in this order, by kind of message.
    heard: [Members; 4],
    last_message: Option<Message>,
    /// In sequences with ballots.
    ballots: Option<BallotPlan>,
}

/// A `Fresh` and 8 to 40 commands.
pub fn sequence(rng: &mut Rng) -> Vec<Command> {
    let group = choices::group(rng, MAX_CONTROLLERS);
    let id = match rng.below(4) {
        0 => group.second_backup(),
        1 => rng.between(1, group.f.into()) as u8,
        _ => choices::id(rng, group),
    };
    let order = choices::order(rng);
    let plan = plan(rng, group);
    // An outcome at the second timeout needs the messages of nearly all.
    let length = match plan.goal {
        Goal::Outcome => rng.between((2 * usize::from(group.n) + 4).min(38), 40),
        _ => rng.between(8, 40),
    };
    let mut script = Script {
        rng,
        controller: Controller::new(group, id, order),
        commands: vec![Command::Fresh {
            group,
            has_ballots: false,
            id,
            order,
        }],
        plan,
        heard: [Members::NONE; 4],
        last_message: None,
        ballots: None,
    };
    while script.commands.len() <= length {
        script.add();
    }
    script.commands
}

/// A `Fresh` and 20 to 60 commands with ballots (document 02, U14), mostly at a lock that has them.
pub fn sequence_with_ballots(rng: &mut Rng) -> Vec<Command> {
    let most = rng.pick(&[2, 3, 3, 4, 5, 7, MAX_CONTROLLERS]);
    let group = choices::group(rng, most);
    let id = choices::id(rng, group);
    let order = choices::order(rng);
    let has_ballots = rng.chance(15, 16);
    let mut plan = plan(rng, group);
    plan.contrary = 0;
    plan.stray = rng.pick(&[0, 2, 10]);
    let length = rng.between(20, 60);
    let mut script = Script {
        rng,
        controller: Controller::of_lock(group, has_ballots, id, order),
        commands: vec![Command::Fresh {
            group,
            has_ballots,
            id,
            order,
        }],
        plan,
        heard: [Members::NONE; 4],
        last_message: None,
        ballots: Some(BallotPlan::default()),
    };
    while script.commands.len() <= length {
        script.add();
    }
    script.commands
}

fn plan(rng: &mut Rng, group: Group) -> Plan {
    let goal = rng.pick(&[
        Goal::Outcome,
        Goal::Outcome,
        Goal::Proposal,
        Goal::Waiting,
        Goal::Waiting,
    ]);
    let unwilling = match rng.below(5) {
        0 => choices::subset(rng, group.everyone()),
        1 => Members::only(choices::id(rng, group)),
        _ => Members::NONE,
    };
    let stray = match goal {
        Goal::Outcome => rng.pick(&[0, 3]),
        _ => rng.pick(&[0, 5, 20]),
    };
    let contrary = match goal {
        Goal::Outcome => rng.pick(&[0, 0, 4]),
        _ => rng.pick(&[0, 10, 40]),
    };
    Plan {
        goal,
        unwilling,
        contrary,
        stray,
    }
}

impl Script<'_> {
    fn group(&self) -> Group {
        self.controller.group()
    }

    fn add(&mut self) {
        let ballot_command = self.ballot_command();
        let command = match ballot_command {
            Some(command) => command,
            None if self.rng.chance(self.plan.stray, 100) => self.stray(),
            None => self.fitting(),
        };
        let acks_before = self.controller.acks_held();
        let (answer, _) = command.call(&mut self.controller);
        self.commands.push(command);
        self.note_ballots(&command, &answer);
        match command {
            // What was dropped may come again, and now and then what was refused by 24.
            Command::Vote { .. } => {
                let dropped = acks_before.difference(self.controller.acks_held());
                let heard = &mut self.heard[MessageKind::Ack.index()];
                *heard = heard.difference(dropped);
            }
            Command::Receive(message) => {
                self.last_message = Some(message);
                if answer.reception == Reception::Contradicted && self.rng.chance(1, 2) {
                    let heard = &mut self.heard[message.kind.index()];
                    *heard = heard.without(message.from);
                }
            }
            Command::NewOrder { .. } => {
                self.plan = plan(self.rng, self.group());
                self.heard = [Members::NONE; 4];
            }
            _ => {}
        }
    }

    /// A command that the state asks for.
    fn fitting(&mut self) -> Command {
        match self.controller.phase() {
            Some(0) => self.before_vote(),
            Some(1) => self.before_first_timeout(),
            Some(2) => self.before_second_timeout(),
            Some(_) if self.controller.is_waiting() => self.while_waiting(),
            Some(_) => self.after_second_timeout(),
            None if self.controller.is_stopped() => self.while_stopped(),
            None => self.on_standby(),
        }
    }

    fn before_vote(&mut self) -> Command {
        let kind = match self.rng.below(12) {
            0 | 1 => MessageKind::Vote,
            2 => MessageKind::Ack,
            3 if self.plan.contrary > 0 => MessageKind::Ack,
            _ => return self.own_vote(),
        };
        self.planned_message(kind)
            .unwrap_or_else(|| self.own_vote())
    }

    fn before_first_timeout(&mut self) -> Command {
        let enough = self.plan.goal != Goal::Outcome && self.rng.chance(1, 4);
        self.message_or_timeout(MessageKind::Vote, enough)
    }

    fn before_second_timeout(&mut self) -> Command {
        let enough = match self.plan.goal {
            Goal::Outcome => false,
            Goal::Proposal => self.rng.chance(1, 3),
            Goal::Waiting => true,
        };
        self.message_or_timeout(MessageKind::Ack, enough)
    }

    fn message_or_timeout(&mut self, kind: MessageKind, enough: bool) -> Command {
        if enough {
            return Command::Timeout;
        }
        self.planned_message(kind).unwrap_or(Command::Timeout)
    }

    fn while_waiting(&mut self) -> Command {
        let kind = match self.rng.below(20) {
            0 => return Command::Decide(choices::verdict(self.rng)),
            1 => return Command::Save,
            2..=5 => MessageKind::Ack,
            6..=8 => MessageKind::Help,
            _ => MessageKind::Helped,
        };
        self.planned_message(kind).unwrap_or_else(|| self.stray())
    }

    fn after_second_timeout(&mut self) -> Command {
        match self.rng.below(12) {
            0..=3 => self
                .planned_message(MessageKind::Help)
                .unwrap_or_else(|| self.stray()),
            4 | 5 => Command::Decide(choices::verdict(self.rng)),
            6 | 7 => Command::Save,
            8 => Command::Stop,
            9 => self.new_order(),
            _ => self.stray(),
        }
    }

    fn while_stopped(&mut self) -> Command {
        match self.rng.below(8) {
            0..=3 => self.restore(),
            4 => self.new_order(),
            _ => self.stray(),
        }
    }

    fn on_standby(&mut self) -> Command {
        match self.rng.below(8) {
            0 | 1 => Command::Decide(choices::verdict(self.rng)),
            2 => Command::Save,
            3 => Command::Stop,
            4 | 5 => self.new_order(),
            _ => self.stray(),
        }
    }

    /// Any command, in turn or not.
    fn stray(&mut self) -> Command {
        match self.rng.below(16) {
            0 => self.own_vote(),
            1 => Command::Timeout,
            2 => Command::Decide(choices::verdict(self.rng)),
            3 => Command::Save,
            4 => self.restore(),
            5 if self.rng.chance(1, 2) => Command::Stop,
            6 if self.rng.chance(1, 3) => self.new_order(),
            7 | 8 => self.repeated_message(),
            9..=11 => self.any_message(),
            _ => self.misled_message(),
        }
    }

    fn own_vote(&mut self) -> Command {
        let planned = !self.plan.unwilling.contains(self.controller.id());
        let willing = planned != self.rng.chance(self.plan.contrary, 400);
        let target = match self.rng.below(4) {
            0 => self.rng.word() as i32,
            _ => choices::position(self.rng),
        };
        Command::Vote { willing, target }
    }

    fn new_order(&mut self) -> Command {
        let number = self.controller.order();
        let order = match self.rng.below(4) {
            0 => choices::order(self.rng),
            1 => number,
            _ => number.wrapping_add(1).max(1),
        };
        Command::NewOrder { order }
    }

    fn restore(&mut self) -> Command {
        let this = self.controller.order();
        let order = match self.rng.below(3) {
            0 => this.wrapping_sub(1).max(1),
            _ => this,
        };
        Command::Restore {
            outcome: choices::outcome(self.rng),
            order,
            position: choices::position(self.rng),
        }
    }
}
