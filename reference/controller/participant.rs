//! A running controller within one order: document 01, "A controller's rules", with document 02, U4 and U7. Its part in
//! ballots is in `ballots.rs`.

use super::ballots::Ballots;
use super::Answer;
use crate::group::{Group, MAX_CONTROLLERS};
use crate::members::Members;
use crate::records::ballot_message::BallotMessage;
use crate::records::message::MessageKind;
use crate::vote_set::{Verdict, VoteSet};

#[derive(Clone, PartialEq, Eq, Debug)]
pub struct Participant {
    group: Group,
    id: u8,
    /// The "stage": 0 before the own vote, 1 before the first timeout, 2 before the second, 3 after it.
    phase: u8,
    outcome: Option<Verdict>,
    target: i32,
    /// The own votes, frozen when phase 1 ends.
    votes: VoteSet,
    /// The acknowledgements held, by sender.
    acks: [Option<VoteSet>; MAX_CONTROLLERS as usize],
    /// The "help sheet", set and frozen at the second timeout.
    help_votes: VoteSet,
    /// Whether neither an outcome nor a proposal was reached since the second timeout.
    waiting: bool,
    /// Whose help answers are counted, and their join.
    helped_by: Members,
    helped_votes: VoteSet,
    /// The callers to be answered at the second timeout, and those that got their help answer.
    kept: Members,
    answered: Members,
    /// The word put in this order.
    proposed: Option<Verdict>,
    /// At a lock with ballots.
    ballots: Option<Ballots>,
}

impl Participant {
    pub fn new(group: Group, has_ballots: bool, id: u8) -> Participant {
        Participant {
            group,
            id,
            phase: 0,
            outcome: None,
            target: 0,
            votes: VoteSet::EMPTY,
            acks: [None; MAX_CONTROLLERS as usize],
            help_votes: VoteSet::EMPTY,
            waiting: false,
            helped_by: Members::NONE,
            helped_votes: VoteSet::EMPTY,
            kept: Members::NONE,
            answered: Members::NONE,
            proposed: None,
            ballots: has_ballots.then(|| Ballots::new(group, id)),
        }
    }

    pub fn phase(&self) -> u8 {
        self.phase
    }

    pub fn outcome(&self) -> Option<Verdict> {
        self.outcome
    }

    pub fn target(&self) -> i32 {
        self.target
    }

    pub fn is_waiting(&self) -> bool {
        self.waiting
    }

    /// The callers whose help calls are kept.
    pub fn kept(&self) -> Members {
        self.kept
    }

    pub fn proposed(&self) -> Option<Verdict> {
        self.proposed
    }

    pub fn ballots(&self) -> Option<&Ballots> {
        self.ballots.as_ref()
    }

    /// "Vote (stage 0): takes willing or not, and a target position."
    pub fn vote(&mut self, willing: bool, target: i32) -> Answer {
        if self.phase != 0 {
            return Answer::passed_over();
        }
        let vote = VoteSet::single(self.id, willing);
        self.target = target;
        // "takes the telegram as not received, also one already held that its own vote contradicts"
        for held in &mut self.acks {
            *held = held.filter(|ack| !ack.contradicts(vote));
        }
        // "Its own vote goes on its sheet."
        self.votes = joined(self.votes, vote);
        // "Controllers 1 to f + 1 go to stage 1, others to stage 2."
        self.phase = if self.group.has_two_timeouts(self.id) {
            1
        } else {
            2
        };
        self.send(MessageKind::Vote, vote)
    }

    pub fn timeout(&mut self) -> Answer {
        match self.phase {
            1 => self.first_timeout(),
            2 => self.second_timeout(),
            _ => Answer::passed_over(),
        }
    }

    /// "Bell at stage 1 (the first bell): the sheet is frozen as the acknowledgement."
    fn first_timeout(&mut self) -> Answer {
        self.phase = 2;
        // "A holder [...] counts its own as received. Controller f + 1 [...] does not count its own."
        if self.group.is_backup(self.id) {
            self.keep_ack(self.id, self.votes);
        }
        self.send(MessageKind::Ack, self.votes)
    }

    /// A kept call is "answered at the second bell, after its own calls, in rising order of caller", whatever comes of it.
    fn second_timeout(&mut self) -> Answer {
        let answer = self.leave_phase_2();
        self.answered = self.kept;
        self.kept = Members::NONE;
        answer.sending(MessageKind::Helped, self.answered, self.help_votes)
    }

    /// "Bell at stage 2 (the second bell; f + 2 to n have just this one): to stage 3."
    fn leave_phase_2(&mut self) -> Answer {
        self.phase = 3;
        let held = self.joined_acks();
        // "The help sheet is the join of own sheet and acknowledgements held, then frozen."
        self.help_votes = joined(self.votes, held);
        let verdict = held.verdict(self.group.everyone());
        if self.acks_suffice() {
            // "the outcome is the word of their join."
            self.outcome = Some(verdict);
            Answer::taken()
        } else if self.cnt() >= 1 {
            // "Otherwise, if at least one is held, it puts the word of their join to the arbiter."
            self.proposed = Some(verdict);
            Answer::taken().proposing(self.proposed)
        } else {
            // "Otherwise it waits, sends help calls to all others of f + 1 to n, and counts its own help sheet as an
            // answer."
            self.waiting = true;
            self.count_help_answer(self.id, self.help_votes);
            let answer = self.send(MessageKind::Help, VoteSet::EMPTY);
            answer.proposing(self.proposal_when_enough())
        }
    }

    /// "If acknowledgements from all of 1 to f are held and full and, for a holder, the one of f + 1 is held and knows
    /// all of 1 to f".
    fn acks_suffice(&self) -> bool {
        let everyone = self.group.everyone();
        let backups = self.group.backups();
        let complete = |id| self.ack_of(id).is_some_and(|ack| ack.is_complete(everyone));
        let knows_backups = |ack: VoteSet| ack.known.includes(backups);
        let second_suffices = self
            .ack_of(self.group.second_backup())
            .is_some_and(knows_backups);
        backups.iter().all(complete) && (!self.group.is_backup(self.id) || second_suffices)
    }

    /// A message that may come from that sender to this controller.
    pub fn receive(&mut self, kind: MessageKind, from: u8, votes: VoteSet) -> Answer {
        // "One that is passed over anyway, as a sender's second acknowledgement or answer, is not tested."
        if !self.applies(kind, from) {
            return Answer::passed_over();
        }
        if self.holds_contradiction_to(votes) {
            return Answer::contradicted();
        }
        match kind {
            MessageKind::Vote => self.receive_vote(votes),
            MessageKind::Ack => self.receive_ack(from, votes),
            MessageKind::Help => self.receive_help(from),
            MessageKind::Helped => self.receive_helped(from, votes),
        }
    }

    /// Whether a message of that kind from that sender is not passed over.
    fn applies(&self, kind: MessageKind, from: u8) -> bool {
        match kind {
            // "Vote arrives: at stage 0 or 1 it goes on the sheet; later it is passed over."
            MessageKind::Vote => self.phase <= 1,
            // "Acknowledgement arrives: kept, one per sender." "After a word or an outcome, more of either is passed
            // over."
            MessageKind::Ack => (self.phase < 3 || self.waiting) && self.ack_of(from).is_none(),
            // "once per caller"; "one per caller"
            MessageKind::Help => !self.kept.contains(from) && !self.answered.contains(from),
            MessageKind::Helped => self.waiting && !self.helped_by.contains(from),
        }
    }

    /// "a contradiction among its own sheet, acknowledgements and help answers"
    fn holds_contradiction_to(&self, votes: VoteSet) -> bool {
        let acks = self.acks.iter().flatten().copied();
        let mut held = acks.chain([self.votes, self.helped_votes]);
        held.any(|held| held.contradicts(votes))
    }

    /// Whose acknowledgements are held.
    pub fn acks_held(&self) -> Members {
        let held = self.group.ids().filter(|&id| self.ack_of(id).is_some());
        held.fold(Members::NONE, |set, id| set.union(Members::only(id)))
    }

    fn receive_vote(&mut self, vote: VoteSet) -> Answer {
        self.votes = joined(self.votes, vote);
        Answer::taken()
    }

    fn receive_ack(&mut self, from: u8, votes: VoteSet) -> Answer {
        self.keep_ack(from, votes);
        Answer::taken().proposing(self.proposal_when_enough())
    }

    /// "Help call arrives: at stage 3 the help sheet is sent back, once per caller." "a call that comes before stage 3 is
    /// kept, one per caller".
    fn receive_help(&mut self, caller: u8) -> Answer {
        let receiver = Members::only(caller);
        if self.phase < 3 {
            self.kept = self.kept.union(receiver);
            return Answer::taken();
        }
        self.answered = self.answered.union(receiver);
        Answer::taken().sending(MessageKind::Helped, receiver, self.help_votes)
    }

    fn receive_helped(&mut self, from: u8, votes: VoteSet) -> Answer {
        self.count_help_answer(from, votes);
        Answer::taken().proposing(self.proposal_when_enough())
    }

    /// "Arbiter's word: becomes the outcome if there is none."
    pub fn decide(&mut self, verdict: Verdict) -> Answer {
        if self.phase != 3 {
            return Answer::passed_over();
        }
        self.outcome.get_or_insert(verdict);
        self.waiting = false;
        Answer::taken()
    }

    /// "When the two counts add up to n − f or more (tested at the bell too), it puts a word: of the join of
    /// acknowledgements if it holds any, else of the join of help answers."
    fn proposal_when_enough(&mut self) -> Option<Verdict> {
        let needed = u32::from(self.group.n - self.group.f);
        if !self.waiting || self.cnt() + self.cnt_help() < needed {
            return None;
        }
        self.waiting = false;
        let joined = if self.cnt() >= 1 {
            self.joined_acks()
        } else {
            self.helped_votes
        };
        self.proposed = Some(joined.verdict(self.group.everyone()));
        self.proposed
    }

    /// "Acknowledgements and help answers are counted apart, one per sender."
    fn cnt(&self) -> u32 {
        self.acks.iter().flatten().count() as u32
    }

    fn cnt_help(&self) -> u32 {
        self.helped_by.count()
    }

    fn ack_of(&self, id: u8) -> Option<VoteSet> {
        self.acks[usize::from(id) - 1]
    }

    fn keep_ack(&mut self, from: u8, votes: VoteSet) {
        self.acks[usize::from(from) - 1] = Some(votes);
    }

    fn joined_acks(&self) -> VoteSet {
        let held = self.acks.iter().flatten();
        held.fold(VoteSet::EMPTY, |all, &ack| joined(all, ack))
    }

    fn count_help_answer(&mut self, from: u8, votes: VoteSet) {
        self.helped_by = self.helped_by.union(Members::only(from));
        self.helped_votes = joined(self.helped_votes, votes);
    }

    /// Document 02, U14: by one "having put a word", at a lock with ballots.
    pub fn open_ballot(&mut self, ballot: u8) -> Answer {
        match (&mut self.ballots, self.proposed) {
            (Some(ballots), Some(own_word)) => ballots.open(ballot, own_word),
            _ => Answer::passed_over(),
        }
    }

    /// A message of a ballot that may come from its sender to this controller.
    pub fn receive_ballot(&mut self, message: &BallotMessage) -> Answer {
        match &mut self.ballots {
            Some(ballots) => ballots.receive(message),
            None => Answer::passed_over(),
        }
    }

    fn send(&self, kind: MessageKind, votes: VoteSet) -> Answer {
        let receivers = self.group.receivers(kind, self.id);
        Answer::taken().sending(kind, receivers, votes)
    }
}

/// The join of two sheets that are both held.
fn joined(one: VoteSet, other: VoteSet) -> VoteSet {
    one.join(other)
        .expect("no two sheets held contradict each other")
}
