//! Short names for events, and benches to try them on.

use reference::ballot::BallotKind;
use reference::bench::Bench;
use reference::group::Group;
use reference::records::event::Event;
use reference::records::message::MessageKind;
use reference::vote_set::Verdict;

pub const VOTE: MessageKind = MessageKind::Vote;
pub const ACK: MessageKind = MessageKind::Ack;
pub const HELP: MessageKind = MessageKind::Help;
pub const HELPED: MessageKind = MessageKind::Helped;
pub const ASK: BallotKind = BallotKind::Ask;
pub const PROMISE: BallotKind = BallotKind::Promise;
pub const PUT: BallotKind = BallotKind::Put;
pub const TAKEN: BallotKind = BallotKind::Taken;
pub const STAY: Verdict = Verdict::Stay;
pub const MOVE: Verdict = Verdict::Move;

pub fn lock(n: u8, f: u8) -> Event {
    Event::Lock {
        group: Group { n, f },
        ballots: false,
    }
}

/// A lock whose controllers are their own arbiter.
pub fn ballot_lock(n: u8, f: u8) -> Event {
    Event::Lock {
        group: Group { n, f },
        ballots: true,
    }
}

pub fn open_ballot(id: u8, ballot: u32) -> Event {
    Event::OpenBallot { id, ballot }
}

pub fn deliver_ballot(kind: BallotKind, from: u8, to: u8, ballot: u32) -> Event {
    Event::DeliverBallot {
        from,
        to,
        kind,
        ballot,
    }
}

pub fn order(number: u32) -> Event {
    Event::Order { number }
}

pub fn vote(id: u8, willing: bool, target: i32) -> Event {
    Event::Vote {
        id,
        willing,
        target,
    }
}

pub fn deliver(kind: MessageKind, from: u8, to: u8) -> Event {
    Event::Deliver { from, to, kind }
}

pub fn timeout(id: u8) -> Event {
    Event::Timeout { id }
}

pub fn decision(id: u8, verdict: Verdict) -> Event {
    Event::Decision { id, verdict }
}

pub fn stop(id: u8) -> Event {
    Event::Stop { id }
}

pub fn save(id: u8) -> Event {
    Event::Save { id }
}

pub fn restore(id: u8) -> Event {
    Event::Restore { id }
}

/// The events as a schedule.
pub fn schedule(events: &[Event]) -> Vec<u8> {
    let record = |event: &Event| {
        let mut bytes = [0; Event::LENGTH];
        assert_eq!(event.write(&mut bytes), 0);
        bytes
    };
    events.iter().flat_map(record).collect()
}

/// A new bench on which all the events were accepted.
pub fn bench_after(events: &[Event]) -> Bench {
    let mut bench = Bench::default();
    accept_all(&mut bench, events);
    bench
}

pub fn accept_all(bench: &mut Bench, events: &[Event]) {
    for event in events {
        assert_eq!(bench.step(event), 0, "{event:?}");
    }
}

/// Every event gets that answer and changes nothing.
pub fn refuse_all(bench: &mut Bench, number: u8, events: &[Event]) {
    for event in events {
        let before = bench.clone();
        assert_eq!(bench.step(event), number, "{event:?}");
        assert_eq!(*bench, before, "{event:?}");
    }
}

pub fn outcomes(bench: &Bench) -> Vec<Option<Verdict>> {
    let lock = bench.lock().expect("a lock");
    lock.controllers().iter().map(|c| c.outcome()).collect()
}

pub fn positions(bench: &Bench) -> Vec<i32> {
    let lock = bench.lock().expect("a lock");
    lock.controllers().iter().map(|c| c.position()).collect()
}

pub fn proposals(bench: &Bench) -> &[Verdict] {
    bench.lock().expect("a lock").proposals()
}

pub fn is_waiting(bench: &Bench, id: u8) -> bool {
    bench.lock().expect("a lock").controller(id).is_waiting()
}

/// The listing of document 01, with or without 2 willing.
pub fn listing(second_willing: bool) -> Vec<Event> {
    vec![
        lock(2, 1),
        order(1),
        vote(1, true, 500),
        vote(2, second_willing, -250),
        deliver(VOTE, 1, 2),
        deliver(VOTE, 2, 1),
        timeout(1),
        timeout(2),
        deliver(ACK, 1, 2),
        deliver(ACK, 2, 1),
        timeout(1),
        timeout(2),
    ]
}

/// The events by which each controller of an order puts that word, at f = n − 1: one that hears all votes puts Move, one that
/// hears none Stay.
pub fn putting(words: &[Verdict]) -> Vec<Event> {
    let ids = || (1..).zip(words);
    let mut events: Vec<Event> = ids().map(|(id, _)| vote(id, true, i32::from(id))).collect();
    for (to, _) in ids().filter(|(_, word)| **word == MOVE) {
        let others = ids().filter(|(from, _)| *from != to);
        events.extend(others.map(|(from, _)| deliver(VOTE, from, to)));
    }
    for _ in 0..2 {
        events.extend(ids().map(|(id, _)| timeout(id)));
    }
    events
}

/// A lock with ballots, in whose first order those words were put by 1 to n.
pub fn words_put(words: &[Verdict]) -> Bench {
    let n = words.len() as u8;
    let mut bench = bench_after(&[ballot_lock(n, n - 1), order(1)]);
    accept_all(&mut bench, &putting(words));
    assert_eq!(proposals(&bench), words);
    bench
}
