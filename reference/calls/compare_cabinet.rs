//! Compares the cabinet library's calls with the reference, on drawn sequences of calls: compare_cabinet SEQUENCES SEED. A sequence is a whole lock, each controller
//! once as a cabinet and once as the reference has it, side by side. After each call the number, the display, the card and the telegrams sent, in their
//! sequence, are alike.

#[allow(dead_code)]
#[path = "../../include/cabinet.rs"]
mod cabinet;

use cabinet::{Cabinet, Outcome, OTHER_CARD};
use reference::ballot::{is_majority, owner, BallotKind};
use reference::controller::{Answer, Controller, Reception};
use reference::group::Group;
use reference::records::ballot_message::BallotMessage;
use reference::records::checkpoint::Checkpoint;
use reference::records::message::Message;
use reference::records::telegram::Telegram;
use reference::rng::Rng;
use reference::vote_set::Verdict;
use std::collections::{BTreeMap, BTreeSet};

/// What was met; a row that is 0 fails.
const ROWS: [&str; 22] = [
    "begun", "order", "order refused", "vote", "vote refused", "receive, changed", "receive, passed over", "receive, refused", "receive, 24", "timeout", "timeout refused", "decide",
    "decide refused", "stop", "save", "wake", "another's card", "open", "open refused", "words put in ballots",
    "a word settled", "to an older ballot",
];

struct Pair {
    own: Cabinet,
    other: Controller,
    /// what the reference has sent in this order: plain telegrams; of each kind of ballots the last: the asks and puts of its last ballot, its last promise, its last taken
    plain: BTreeSet<Vec<u8>>,
    ballots: [BTreeSet<Vec<u8>>; 4],
    /// its last ballot, the word that it put there, and who is known to have taken it
    ballot: u8,
    word: Option<Verdict>,
    takers: BTreeSet<u8>,
}

fn written(telegram: Telegram) -> Vec<u8> {
    let mut bytes = vec![0; telegram.form().length()];
    assert_eq!(telegram.write(&mut bytes), 0);
    bytes
}

fn outcome(verdict: Option<Verdict>) -> Option<Outcome> {
    verdict.map(|v| if v == Verdict::Move { Outcome::Move } else { Outcome::Stay })
}

fn number(result: Result<(), u8>) -> u8 {
    result.err().unwrap_or(0)
}

impl Pair {
    fn begin(group: Group, has_ballots: bool, id: u8, position: i32) -> Pair {
        Pair {
            own: Cabinet::begin(group.n, group.f, id, has_ballots, position).expect("a controller of a lock"),
            other: Controller::of_lock(group, has_ballots, id, 0).standing_at(position),
            plain: BTreeSet::new(),
            ballots: Default::default(),
            ballot: 0,
            word: None,
            takers: BTreeSet::new(),
        }
    }

    fn forget(&mut self) {
        self.plain.clear();
        self.ballots = Default::default();
        self.begin_ballot(0);
    }

    fn begin_ballot(&mut self, ballot: u8) {
        (self.ballot, self.word) = (ballot, None);
        self.takers.clear();
        self.ballots[BallotKind::Ask.index()].clear();
        self.ballots[BallotKind::Put.index()].clear();
    }

    /// "taken" of the word of its last ballot: its sender counts, once.
    fn count_taken(&mut self, m: &BallotMessage) {
        let (group, id, order) = (self.other.group(), self.other.id(), self.other.order());
        let comes = self.other.is_running() && m.group == group && m.order == order && m.to == id && m.from != id;
        if comes && m.kind == BallotKind::Taken && m.ballot == self.ballot && self.word.is_some() && m.word == self.word {
            self.takers.insert(m.from);
        }
    }

    fn settled(&self) -> Option<Outcome> {
        outcome(self.word.filter(|_| is_majority(self.other.group(), self.takers.len() as u32)))
    }

    /// What an answer of the reference sent.
    fn sent(&mut self, answer: &Answer) {
        let (group, from, order) = (self.other.group(), self.other.id(), self.other.order());
        for s in &answer.sent {
            for to in group.ids().filter(|&to| s.receivers.contains(to)) {
                self.plain.insert(written(Telegram::Votes(Message { kind: s.kind, group, from, to, order, votes: s.votes })));
            }
        }
        for s in &answer.ballots_sent {
            if s.kind == BallotKind::Put && s.ballot == self.ballot {
                self.word = s.word;
            }
            let telegrams = group.ids().filter(|&to| s.receivers.contains(to));
            self.ballots[s.kind.index()] = telegrams.map(|to| written(Telegram::Ballot(BallotMessage { kind: s.kind, group, from, to, order, ballot: s.ballot, last: s.last, word: s.word }))).collect();
        }
    }

    /// One that took the word of its own last ballot has taken it too.
    fn took(&mut self, answer: &Answer) {
        if answer.taking.is_some_and(|t| t.ballot == self.ballot) {
            self.takers.insert(self.other.id());
            // its last taken is now the one to itself
            self.ballots[BallotKind::Taken.index()].clear();
        }
    }

    fn alike(&self, with_telegrams: bool) {
        let shown = self.own.show();
        let stage = self.other.phase().unwrap_or(if self.other.is_stopped() { 8 } else { 9 });
        assert_eq!((shown.order, shown.stage, shown.position), (self.other.order(), stage, self.other.position()));
        assert_eq!((shown.outcome, shown.put), (outcome(self.other.outcome()), outcome(self.other.proposed())));
        assert_eq!(shown.settled, self.settled());
        if let Some(ballots) = self.other.ballots() {
            assert_eq!(shown.highest, ballots.highest_promise());
        }
        if !with_telegrams {
            return;
        }
        // by kind, and of a kind to rising receivers, as their bytes rise too; then the last promise and the last taken, the asks and the puts
        let of_ballots = [BallotKind::Promise, BallotKind::Taken, BallotKind::Ask, BallotKind::Put].map(|kind| &self.ballots[kind.index()]);
        let expected: Vec<_> = self.plain.iter().chain(of_ballots.into_iter().flatten()).collect();
        let found: Vec<_> = self.own.telegrams().map(|t| t.bytes().to_vec()).collect();
        assert_eq!(found.iter().collect::<Vec<_>>(), expected);
    }

    /// 14 and 15, as every call but a receive asks them.
    fn condition(&self, fits: bool) -> u8 {
        match (self.other.order(), fits) {
            (0, _) => 14,
            (_, false) => 15,
            _ => 0,
        }
    }
}

fn main() {
    let mut words = std::env::args().skip(1).map(|a| a.parse::<u64>().expect("a number"));
    let (sequences, seed) = (words.next().expect("SEQUENCES"), words.next().expect("SEED"));
    let mut rng = Rng::new(seed);
    let mut met: BTreeMap<&str, u64> = BTreeMap::new();
    let mut calls = 0u64;
    for _ in 0..sequences {
        calls += sequence(&mut rng.fork(), &mut |row| *met.entry(row).or_insert(0) += 1);
    }
    println!("{sequences} sequences, {calls} calls, no difference");
    let missing: Vec<_> = ROWS.iter().filter(|row| !met.contains_key(*row)).collect();
    for (row, count) in &met {
        println!("{count} {row}");
    }
    assert!(missing.is_empty(), "never met: {missing:?}");
}

fn sequence(rng: &mut Rng, met: &mut dyn FnMut(&'static str)) -> u64 {
    let n = if rng.chance(1, 50) { rng.between(2, 32) } else { rng.between(2, 4) } as u8;
    let group = Group { n, f: rng.between(1, n as usize - 1) as u8 };
    let has_ballots = rng.chance(1, 2);
    let mut lock: Vec<Pair> = group.ids().map(|id| Pair::begin(group, has_ballots, id, rng.below(40_001) as i32 - 20_000)).collect();
    let mut cards: Vec<[u8; 14]> = Vec::new();
    let mut line: Vec<Vec<u8>> = Vec::new();
    let mut order = 0;
    // now and then no telegram comes before the waits are over, so that all put a word, and the rest goes by ballots
    let by_ballots = has_ballots && rng.chance(1, 3);
    let count = if by_ballots { rng.between(60, 90) } else { rng.between(30, 60) } as u64;
    // mostly an order that all are in, and have voted in; then anything
    let mut script: Vec<(usize, usize)> = (0..lock.len()).flat_map(|i| [(i, 1), (i, 0)]).collect();
    if by_ballots {
        script.splice(0..0, (0..2 * lock.len()).map(|i| (i / 2, 3)));
    }
    script.truncate(if !by_ballots && rng.chance(1, 6) { rng.below(script.len()) } else { script.len() });
    met("begun");
    for _ in 0..count {
        let scripted = script.pop();
        let (i, call) = scripted.unwrap_or_else(|| (rng.below(lock.len()), rng.weighted(if by_ballots { &[0, 0, 60, 0, 1, 1, 1, 0, 6] } else { &[1, 1, 60, 8, 2, 1, 2, 1, 8] }).expect("a call")));
        let p = &mut lock[i];
        let before = p.own.clone();
        match call {
            0 => {
                let given = if scripted.is_some() { 1 } else if rng.chance(1, 8) { rng.below(3) as u32 } else { p.other.order().max(order) + rng.below(2) as u32 };
                let expected = match given {
                    0 => 8,
                    k if k <= p.other.order() => 12,
                    _ if p.other.order() != 0 && p.other.is_running() && p.other.outcome().is_none() => 13,
                    _ => 0,
                };
                assert_eq!(number(p.own.order(given)), expected);
                if expected == 0 {
                    p.other.new_order(given);
                    p.forget();
                    order = order.max(given);
                    met("order");
                } else {
                    met("order refused");
                }
            }
            1 => {
                let (willing, target) = (rng.chance(7, 8), if rng.chance(1, 12) { 20_001 } else { rng.below(20_001) as i32 });
                let expected = match p.condition(p.other.is_running()) {
                    _ if target > 20_000 => 11,
                    0 if p.other.phase() != Some(0) => 16,
                    q => q,
                };
                assert_eq!(number(p.own.vote(willing, target)), expected);
                if expected == 0 {
                    let answer = p.other.vote(willing, target);
                    assert!(answer.is_taken());
                    p.sent(&answer);
                    met("vote");
                } else {
                    met("vote refused");
                }
            }
            2 => receive(rng, p, &mut line, by_ballots, met),
            3 => {
                let expected = match p.condition(p.other.is_running()) {
                    0 if !matches!(p.other.phase(), Some(1 | 2)) => 16,
                    q => q,
                };
                assert_eq!(number(p.own.timeout()), expected);
                if expected == 0 {
                    let answer = p.other.timeout();
                    assert!(answer.is_taken());
                    p.sent(&answer);
                    met("timeout");
                } else {
                    met("timeout refused");
                }
            }
            4 => {
                let word = if rng.chance(1, 2) { Outcome::Move } else { Outcome::Stay };
                let expected = match p.condition(!p.other.is_stopped()) {
                    0 if p.other.is_running() && p.other.phase() != Some(3) => 16,
                    q => q,
                };
                assert_eq!(number(p.own.decide(word)), expected);
                if expected == 0 {
                    assert!(p.other.decide(if word == Outcome::Move { Verdict::Move } else { Verdict::Stay }).is_taken());
                    met("decide");
                } else {
                    met("decide refused");
                }
            }
            5 => {
                let expected = p.condition(!p.other.is_stopped());
                assert_eq!(number(p.own.stop()), expected);
                if expected == 0 {
                    p.other.stop();
                    met("stop");
                }
            }
            6 => {
                let expected = p.condition(!p.other.is_stopped());
                match p.own.save() {
                    Err(q) => assert_eq!(q, expected),
                    Ok(card) => {
                        let mut bytes = [0; 14];
                        assert_eq!((expected, p.other.save().expect("a card").write(&mut bytes)), (0, 0));
                        assert_eq!(card, bytes);
                        cards.push(card);
                        met("save");
                    }
                }
            }
            7 => {
                if cards.is_empty() {
                    continue;
                }
                let mut card = rng.pick(&cards);
                if rng.chance(1, 6) {
                    card[rng.below(14)] ^= 1 << rng.below(8);
                }
                let read = Checkpoint::read(&card);
                let expected = match &read {
                    Err(q) => *q,
                    Ok(c) if c.id != p.other.id() || c.group != group => OTHER_CARD,
                    Ok(_) => 0,
                };
                assert_eq!(number(p.own.wake(&card)), expected);
                if expected == OTHER_CARD {
                    met("another's card");
                }
                if let (0, Ok(card)) = (expected, read) {
                    if card.order > p.other.order() {
                        p.other.new_order(card.order);
                    }
                    p.other.stop();
                    assert!(p.other.restore(&card).is_taken());
                    p.forget();
                    met("wake");
                }
            }
            _ => {
                let ballot = if rng.chance(1, 8) { rng.byte() } else { p.own.show().highest.saturating_add(rng.below(2 * n as usize) as u8) };
                let may = match p.other.ballots() {
                    Some(ballots) => ballots.may_open(ballot),
                    None => ballot != 0 && owner(group, ballot) == Some(p.other.id()),
                };
                let expected = match p.condition(p.other.is_running()) {
                    0 if !may => 28,
                    0 if !has_ballots || p.other.proposed().is_none() => 29,
                    q => q,
                };
                assert_eq!(number(p.own.open(ballot)), expected);
                if expected == 0 {
                    let answer = p.other.open_ballot(ballot);
                    assert!(answer.is_taken());
                    p.begin_ballot(ballot);
                    // its last promise is now the one to itself
                    p.ballots[BallotKind::Promise.index()].clear();
                    p.sent(&answer);
                    p.took(&answer);
                    met("open");
                } else {
                    met("open refused");
                }
            }
        }
        let changed = lock[i].own != before;
        lock[i].alike(changed || rng.chance(1, 20));
        if changed {
            line.extend(lock[i].own.telegrams().map(|t| t.bytes().to_vec()));
        }
        if line.len() > 400 {
            line.drain(..200);
        }
    }
    count
}

/// One of the telegrams on the line, now and then with a bit turned.
fn receive(rng: &mut Rng, p: &mut Pair, line: &mut [Vec<u8>], by_ballots: bool, met: &mut dyn FnMut(&'static str)) {
    if line.is_empty() {
        return;
    }
    let mine: Vec<usize> = (0..line.len()).filter(|&k| line[k][6] == p.other.id() && (!by_ballots || line[k][2] >= 5)).collect();
    let k = if mine.is_empty() || rng.chance(1, 10) { rng.below(line.len()) } else { rng.pick(&mine) };
    let mut bytes = line[k].clone();
    match rng.below(12) {
        0 => {
            let at = rng.below(bytes.len());
            bytes[at] ^= 1 << rng.below(8);
        }
        // a stray: of those known none is willing
        1 if bytes[2] < 5 => {
            let half = (bytes.len() - 12) / 2;
            bytes[12 + half..].fill(0);
        }
        // a taken of the other word
        2 if bytes[2] == 8 => {
            let at = bytes.len() - 2;
            bytes[at] ^= 3;
        }
        _ => {}
    }
    let answer = match Telegram::read(&bytes) {
        Err(q) => {
            assert_eq!(p.own.receive(&bytes), Err(q));
            met("receive, refused");
            return;
        }
        // to a ballot of its own that is not its last: the cabinet has no count of it any more, and passes it over
        Ok(Telegram::Ballot(m)) if p.other.ballots().is_some_and(|b| b.opened().any(|o| o == m.ballot) && b.opened().max() != Some(m.ballot)) => {
            let before = p.own.clone();
            assert_eq!(p.own.receive(&bytes), Ok(()));
            assert!(p.own == before);
            met("to an older ballot");
            return;
        }
        Ok(Telegram::Votes(m)) => p.other.receive(&m),
        Ok(Telegram::Ballot(m)) => {
            p.count_taken(&m);
            p.other.receive_ballot(&m)
        }
    };
    let expected = if answer.reception == Reception::Contradicted { 24 } else { 0 };
    let before = p.own.clone();
    assert_eq!(number(p.own.receive(&bytes)), expected);
    match (expected, before == p.own) {
        (24, same) => {
            assert!(same);
            met("receive, 24");
        }
        (_, true) => met("receive, passed over"),
        (_, false) => met("receive, changed"),
    }
    if answer.taking.is_some() && bytes[2] == 6 {
        met("words put in ballots");
    }
    p.sent(&answer);
    p.took(&answer);
    if p.settled().is_some() {
        met("a word settled");
    }
}
