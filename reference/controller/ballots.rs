//! A running controller's part in the ballots of one order: document 02, U14, at a lock with c = 1.

use super::{Answer, BallotSending};
use crate::ballot::{is_majority, owner, BallotKind, Taking};
use crate::group::Group;
use crate::members::Members;
use crate::records::ballot_message::BallotMessage;
use crate::vote_set::Verdict;

#[derive(Clone, PartialEq, Eq, Debug)]
pub struct Ballots {
    group: Group,
    id: u8,
    /// 0 where nothing was promised.
    highest_promise: u8,
    last_taken: Option<Taking>,
    /// "once per ballot and kind": the ballots whose ask was answered, and those taken.
    answered: Vec<u8>,
    taken: Vec<u8>,
    opened: Vec<Opened>,
}

/// One of the own ballots since it was opened.
#[derive(Clone, PartialEq, Eq, Debug)]
struct Opened {
    ballot: u8,
    own_word: Verdict,
    /// "one per sender and its own counted"
    promised_by: Members,
    /// What those promises reported.
    reported: Vec<Taking>,
    is_put: bool,
}

impl Ballots {
    pub fn new(group: Group, id: u8) -> Ballots {
        Ballots {
            group,
            id,
            highest_promise: 0,
            last_taken: None,
            answered: Vec::new(),
            taken: Vec::new(),
            opened: Vec::new(),
        }
    }

    pub fn highest_promise(&self) -> u8 {
        self.highest_promise
    }

    pub fn last_taken(&self) -> Option<Taking> {
        self.last_taken
    }

    /// The own ballots opened in this order.
    pub fn opened(&self) -> impl Iterator<Item = u8> + '_ {
        self.opened.iter().map(|own| own.ballot)
    }

    /// Of 28: "one to open that is not the controller's, was opened or is below its highest promise".
    pub fn may_open(&self, ballot: u8) -> bool {
        owner(self.group, ballot) == Some(self.id)
            && self.opened().all(|opened| opened != ballot)
            && !self.is_below(ballot)
    }

    /// "it promises to itself and sends all others an ask"
    pub fn open(&mut self, ballot: u8, own_word: Verdict) -> Answer {
        if !self.may_open(ballot) {
            return Answer::passed_over();
        }
        self.highest_promise = ballot;
        self.opened.push(Opened {
            ballot,
            own_word,
            promised_by: Members::only(self.id),
            reported: self.last_taken.into_iter().collect(),
            is_put: false,
        });
        Answer::taken().sending_ballot(self.to_all_others(BallotKind::Ask, ballot, None))
    }

    /// A message of this order that suits its kind and comes from another controller of the lock.
    pub fn receive(&mut self, message: &BallotMessage) -> Answer {
        let from_owner = owner(self.group, message.ballot) == Some(message.from);
        match (message.kind, message.word) {
            (BallotKind::Ask, _) if from_owner => self.receive_ask(message.from, message.ballot),
            (BallotKind::Put, Some(word)) if from_owner => {
                let ballot = message.ballot;
                self.receive_put(message.from, Taking { ballot, word })
            }
            (BallotKind::Promise, _) => self.receive_promise(message),
            // "A taken changes nothing where it comes in".
            _ => Answer::passed_over(),
        }
    }

    /// "an ask by a promise"
    fn receive_ask(&mut self, owner: u8, ballot: u8) -> Answer {
        if self.is_below(ballot) || self.answered.contains(&ballot) {
            return Answer::passed_over();
        }
        self.answered.push(ballot);
        self.highest_promise = ballot;
        let last = self.last_taken;
        Answer::taken().sending_ballot(BallotSending {
            kind: BallotKind::Promise,
            receivers: Members::only(owner),
            ballot,
            last: last.map_or(0, |taking| taking.ballot),
            word: last.map(|taking| taking.word),
        })
    }

    /// "a put by taking it and a taken to the owner"
    fn receive_put(&mut self, owner: u8, put: Taking) -> Answer {
        if !self.take(put) {
            return Answer::passed_over();
        }
        let taken = BallotSending {
            kind: BallotKind::Taken,
            receivers: Members::only(owner),
            ballot: put.ballot,
            last: 0,
            word: Some(put.word),
        };
        Answer::taken().taking(put).sending_ballot(taken)
    }

    /// Takes what is put, unless it is below the highest promise or taken already; whether it did.
    fn take(&mut self, put: Taking) -> bool {
        if self.is_below(put.ballot) || self.taken.contains(&put.ballot) {
            return false;
        }
        self.taken.push(put.ballot);
        self.last_taken = Some(put);
        // "Both raise its highest promise to that ballot."
        self.highest_promise = put.ballot;
        true
    }

    /// "With promises from more than n/2 controllers, one per sender and its own counted, the owner puts, once per
    /// ballot". A promise for a ballot that this controller did not open is passed over, and one that comes after the put.
    fn receive_promise(&mut self, message: &BallotMessage) -> Answer {
        let is_meant = |own: &&mut Opened| own.ballot == message.ballot;
        let Some(own) = self.opened.iter_mut().find(is_meant) else {
            return Answer::passed_over();
        };
        if own.is_put || own.promised_by.contains(message.from) {
            return Answer::passed_over();
        }
        own.promised_by = own.promised_by.union(Members::only(message.from));
        own.reported.extend(message.word.map(|word| Taking {
            ballot: message.last,
            word,
        }));
        if !is_majority(self.group, own.promised_by.count()) {
            return Answer::taken();
        }
        own.is_put = true;
        let put = own.to_put();
        self.put(put)
    }

    /// "The put goes to all others; the owner takes its own by the same rule."
    fn put(&mut self, put: Taking) -> Answer {
        let sending = self.to_all_others(BallotKind::Put, put.ballot, Some(put.word));
        let answer = Answer::taken().sending_ballot(sending);
        if self.take(put) {
            answer.taking(put)
        } else {
            answer
        }
    }

    /// "A running controller answers only ballots not below its highest promise".
    fn is_below(&self, ballot: u8) -> bool {
        ballot < self.highest_promise
    }

    fn to_all_others(&self, kind: BallotKind, ballot: u8, word: Option<Verdict>) -> BallotSending {
        BallotSending {
            kind,
            receivers: self.group.everyone().without(self.id),
            ballot,
            last: 0,
            word,
        }
    }
}

impl Opened {
    /// "the word of the highest ballot reported, else its own"
    fn to_put(&self) -> Taking {
        let highest = self.reported.iter().max_by_key(|taking| taking.ballot);
        Taking {
            ballot: self.ballot,
            word: highest.map_or(self.own_word, |taking| taking.word),
        }
    }
}
