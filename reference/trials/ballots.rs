//! Document 02, U14, on the bench: ballots, and questions 17, 18, 28 and 29.

use crate::support::*;
use reference::ballot::Taking;
use reference::bench::Bench;
use reference::generate::ballots::schedule;
use reference::records::event::Event;
use reference::records::telegram::Telegram;
use reference::rng::Rng;
use reference::text::{bench_report, bench_state};
use reference::vote_set::Verdict;

fn is_chosen(bench: &Bench) -> [bool; 2] {
    let lock = bench.lock().expect("a lock");
    [STAY, MOVE].map(|word| lock.is_chosen(word))
}

/// Highest promise and ballot last taken, by controller; stopped ones show 0.
fn promises(bench: &Bench) -> Vec<(u8, u8)> {
    let controllers = bench.lock().expect("a lock").controllers().iter();
    let shown = controllers.map(|c| {
        let part = c.ballots();
        let last = part.and_then(|part| part.last_taken());
        let last = last.map_or(0, |taking| taking.ballot);
        (part.map_or(0, |part| part.highest_promise()), last)
    });
    shown.collect()
}

/// Ballot, ballot last taken and word of a message sent.
fn sent(bench: &Bench, event: Event) -> Option<(u8, u8, Option<Verdict>)> {
    let Event::DeliverBallot {
        from,
        to,
        kind,
        ballot,
    } = event
    else {
        panic!("a delivery of a ballot");
    };
    let lock = bench.lock().expect("a lock");
    let message = lock.ballot_message(kind, from, to, ballot as u8)?;
    Some((message.ballot, message.last, message.word))
}

/// A ballot from its opening to the put, with the promises of some.
fn up_to_put(owner: u8, ballot: u32, asked: &[u8]) -> Vec<Event> {
    let mut events = vec![open_ballot(owner, ballot)];
    for &id in asked {
        events.push(deliver_ballot(ASK, owner, id, ballot));
        events.push(deliver_ballot(PROMISE, id, owner, ballot));
    }
    events
}

/// Catches "a taking does not raise the promise": 1 takes 2's put, and then does not take its own of ballot 1.
#[test]
fn a_taking_raises_the_promise() {
    let mut bench = words_put(&[MOVE, STAY, STAY]);
    accept_all(
        &mut bench,
        &[
            open_ballot(2, 2),
            open_ballot(1, 1),
            deliver_ballot(ASK, 1, 3, 1),
            deliver_ballot(ASK, 2, 3, 2),
            deliver_ballot(PROMISE, 3, 2, 2),
            deliver_ballot(PUT, 2, 1, 2),
        ],
    );
    assert_eq!(promises(&bench), [(2, 2), (2, 2), (2, 0)]);
    assert_eq!(is_chosen(&bench), [true, false]);
    // "still sends its put, and does not take it itself"
    accept_all(&mut bench, &[deliver_ballot(PROMISE, 3, 1, 1)]);
    let put = deliver_ballot(PUT, 1, 2, 1);
    assert_eq!(sent(&bench, put), Some((1, 0, Some(MOVE))));
    assert_eq!(promises(&bench), [(2, 2), (2, 2), (2, 0)]);
    // A late ask of a ballot already taken is answered, with last that ballot.
    accept_all(&mut bench, &[deliver_ballot(ASK, 2, 1, 2)]);
    let promise = deliver_ballot(PROMISE, 1, 2, 2);
    assert_eq!(sent(&bench, promise), Some((2, 2, Some(STAY))));
    accept_all(
        &mut bench,
        &[
            open_ballot(1, 4),
            deliver_ballot(ASK, 1, 3, 4),
            deliver_ballot(PROMISE, 3, 1, 4),
        ],
    );
    // 3 reports nothing, 1 itself what it had taken.
    let put = deliver_ballot(PUT, 1, 2, 4);
    assert_eq!(sent(&bench, put), Some((4, 0, Some(STAY))));
    accept_all(&mut bench, &[put]);
    assert_eq!(is_chosen(&bench), [true, false]);
    refuse_all(&mut bench, 18, &[decision(1, MOVE), decision(2, MOVE)]);
    accept_all(&mut bench, &[decision(1, STAY), decision(2, STAY), decision(3, STAY)]);
    // "T goes on counting kinds 1 to 4": two votes and two acknowledgements each, as at c = 0.
    assert!(bench_state(&bench).ends_with("T 6 6 0 0\n"));
}

#[test]
fn the_highest_ballot_reported_gives_the_word() {
    // n = 5: ballot 1 puts Move and reaches 1 alone, ballot 2 puts Stay and reaches 2 and 3.
    let mut bench = words_put(&[MOVE, STAY, MOVE, STAY, STAY]);
    accept_all(&mut bench, &up_to_put(1, 1, &[4, 5]));
    accept_all(&mut bench, &up_to_put(2, 2, &[4, 5]));
    accept_all(&mut bench, &[deliver_ballot(PUT, 2, 3, 2)]);
    assert_eq!(promises(&bench), [(1, 1), (2, 2), (2, 2), (2, 0), (2, 0)]);
    // 3, which put Move, asks 1 and 2: its own report and 2's are of ballot 2.
    let mut other = bench.clone();
    accept_all(&mut other, &up_to_put(3, 3, &[1, 2]));
    let put = deliver_ballot(PUT, 3, 4, 3);
    assert_eq!(sent(&other, put), Some((3, 0, Some(STAY))));
    // 4, which put Stay, asks 1 and 5: the one ballot reported is 1's.
    accept_all(&mut bench, &up_to_put(4, 4, &[1, 5]));
    let put = deliver_ballot(PUT, 4, 1, 4);
    assert_eq!(sent(&bench, put), Some((4, 0, Some(MOVE))));
    accept_all(&mut bench, &[put, deliver_ballot(PUT, 4, 5, 4)]);
    assert_eq!(is_chosen(&bench), [false, true]);
    // "The put goes to all others": late ones are below the promise and change nothing.
    let before = bench.clone();
    accept_all(&mut bench, &[deliver_ballot(PUT, 1, 4, 1), deliver_ballot(PUT, 2, 5, 2)]);
    assert_eq!(bench, before);
}

#[test]
fn majorities_are_more_than_half() {
    let mut bench = words_put(&[MOVE, STAY, STAY, STAY]);
    accept_all(&mut bench, &up_to_put(1, 1, &[2]));
    refuse_all(&mut bench, 17, &[deliver_ballot(PUT, 1, 2, 1)]);
    let again = deliver_ballot(PROMISE, 2, 1, 1);
    accept_all(&mut bench, &[again, again, deliver_ballot(ASK, 1, 3, 1)]);
    refuse_all(&mut bench, 17, &[deliver_ballot(PUT, 1, 2, 1)]);
    accept_all(&mut bench, &[deliver_ballot(PROMISE, 3, 1, 1), deliver_ballot(PUT, 1, 2, 1)]);
    // 1 and 2 have taken it: half.
    refuse_all(&mut bench, 18, &[decision(1, MOVE)]);
    accept_all(&mut bench, &[deliver_ballot(PUT, 1, 4, 1), decision(1, MOVE)]);
    refuse_all(&mut bench, 18, &[decision(1, STAY)]);
}

/// Takings of two ballots do not add up, not even of one word.
#[test]
fn takings_are_counted_by_ballot() {
    let mut bench = words_put(&[STAY, STAY, STAY, STAY, STAY]);
    accept_all(&mut bench, &up_to_put(1, 1, &[4, 5]));
    accept_all(&mut bench, &up_to_put(2, 2, &[4, 5]));
    accept_all(&mut bench, &[deliver_ballot(PUT, 2, 3, 2)]);
    let lock = bench.lock().expect("a lock");
    assert_eq!(lock.takings().len(), 3);
    refuse_all(&mut bench, 18, &[decision(1, STAY)]);
    accept_all(&mut bench, &[deliver_ballot(PUT, 2, 4, 2), decision(1, STAY)]);
}

#[test]
fn a_stop_keeps_the_notes_of_takings() {
    let mut bench = words_put(&[MOVE, STAY, STAY]);
    accept_all(&mut bench, &up_to_put(1, 1, &[3]));
    accept_all(&mut bench, &[save(1), stop(1), deliver_ballot(PUT, 1, 3, 1), stop(3)]);
    assert_eq!(is_chosen(&bench), [false, true]);
    let lock = bench.lock().expect("a lock");
    let takers = lock.takers(Taking {
        ballot: 1,
        word: MOVE,
    });
    assert_eq!(takers.0, 0b101);
    // One standing by is given the word, and takes no part in ballots.
    accept_all(&mut bench, &[restore(1), decision(1, MOVE), decision(2, MOVE)]);
    refuse_all(&mut bench, 15, &[open_ballot(1, 4), deliver_ballot(PROMISE, 2, 1, 1)]);
    assert_eq!(outcomes(&bench), [Some(MOVE), Some(MOVE), None]);
}

/// What a stopped one sent may still come.
#[test]
fn messages_of_ballots_outlive_a_stop() {
    let mut bench = words_put(&[MOVE, STAY, STAY]);
    accept_all(&mut bench, &[open_ballot(1, 1), deliver_ballot(ASK, 1, 2, 1), stop(1)]);
    accept_all(&mut bench, &[deliver_ballot(ASK, 1, 3, 1)]);
    refuse_all(&mut bench, 15, &[deliver_ballot(PROMISE, 2, 1, 1), open_ballot(1, 4)]);
    assert_eq!(promises(&bench), [(0, 0), (1, 0), (1, 0)]);
}

#[test]
fn a_new_order_forgets() {
    let mut bench = words_put(&[MOVE, STAY, STAY]);
    accept_all(&mut bench, &up_to_put(1, 1, &[2]));
    accept_all(&mut bench, &[deliver_ballot(PUT, 1, 2, 1), deliver_ballot(TAKEN, 2, 1, 1)]);
    let given = [1, 2, 3].map(|id| decision(id, MOVE));
    accept_all(&mut bench, &given);
    accept_all(&mut bench, &[order(2)]);
    assert_eq!(promises(&bench), [(0, 0); 3]);
    assert_eq!(is_chosen(&bench), [false, false]);
    refuse_all(&mut bench, 29, &[open_ballot(1, 1)]);
    accept_all(&mut bench, &putting(&[STAY, STAY, STAY]));
    refuse_all(&mut bench, 18, &given);
    let old = [(ASK, 1, 2), (PROMISE, 2, 1), (PUT, 1, 3), (TAKEN, 2, 1)];
    refuse_all(&mut bench, 17, &old.map(|(kind, from, to)| deliver_ballot(kind, from, to, 1)));
    // The ballot may be opened again, and nothing of the last order is reported.
    accept_all(&mut bench, &up_to_put(1, 1, &[2]));
    assert_eq!(sent(&bench, deliver_ballot(PUT, 1, 3, 1)), Some((1, 0, Some(STAY))));
}

/// At any stage, and with an outcome too.
#[test]
fn every_running_controller_answers() {
    let mut bench = bench_after(&[ballot_lock(3, 1), order(1), vote(1, true, 7), timeout(1), timeout(1)]);
    assert_eq!(proposals(&bench), [STAY]);
    accept_all(&mut bench, &up_to_put(1, 1, &[3]));
    accept_all(&mut bench, &[deliver_ballot(PUT, 1, 2, 1), decision(1, STAY)]);
    assert_eq!(bench_state(&bench), "C 1 3 S 0\nC 2 0 - 0\nC 3 0 - 0\nT 1 2 0 0\n");
    // One that put a word and has an outcome may still open ballots.
    accept_all(&mut bench, &up_to_put(1, 4, &[2]));
    let promise = deliver_ballot(PROMISE, 2, 1, 4);
    assert_eq!(sent(&bench, promise), Some((4, 1, Some(STAY))));
}

/// "once per ballot and kind": what comes again changes nothing.
#[test]
fn repeated_messages_change_nothing() {
    let mut bench = words_put(&[MOVE, STAY, STAY]);
    accept_all(&mut bench, &up_to_put(1, 1, &[2, 3]));
    accept_all(&mut bench, &[deliver_ballot(PUT, 1, 2, 1)]);
    let before = bench.clone();
    let again = [
        deliver_ballot(ASK, 1, 2, 1),
        deliver_ballot(PROMISE, 2, 1, 1),
        deliver_ballot(PROMISE, 3, 1, 1),
        deliver_ballot(PUT, 1, 2, 1),
        deliver_ballot(TAKEN, 2, 1, 1),
    ];
    for event in again {
        accept_all(&mut bench, &[event]);
        assert_eq!(bench, before, "{event:?}");
    }
}

#[test]
fn question_28_of_an_opening() {
    let mut bench = words_put(&[MOVE, STAY, STAY]);
    for ballot in [0, 256, 257, 1 << 16 | 1, u32::MAX] {
        refuse_all(&mut bench, 28, &[open_ballot(1, ballot)]);
    }
    // 1 owns 1, 4, .., 253; 2 owns 2, .., 254; 3 owns 3, .., 255.
    refuse_all(&mut bench, 28, &[open_ballot(1, 2), open_ballot(2, 1), open_ballot(2, 255)]);
    accept_all(&mut bench, &[open_ballot(1, 4)]);
    refuse_all(&mut bench, 28, &[open_ballot(1, 4), open_ballot(1, 1)]);
    accept_all(&mut bench, &[open_ballot(3, 3), deliver_ballot(ASK, 1, 2, 4)]);
    refuse_all(&mut bench, 28, &[open_ballot(2, 2)]);
    accept_all(&mut bench, &[open_ballot(2, 5), open_ballot(1, 253), open_ballot(3, 255)]);
}

#[test]
fn question_29_of_an_opening() {
    // No word put: at stage 0, at stage 3 waiting, at stage 3 with an outcome.
    let mut bench = bench_after(&[ballot_lock(3, 1), order(1)]);
    refuse_all(&mut bench, 29, &[open_ballot(1, 1), open_ballot(2, 2)]);
    accept_all(&mut bench, &[vote(3, true, 0), timeout(3)]);
    assert!(is_waiting(&bench, 3));
    refuse_all(&mut bench, 29, &[open_ballot(3, 3)]);
    // 28 comes before 29, and 15 before both.
    refuse_all(&mut bench, 28, &[open_ballot(1, 2), open_ballot(1, 0)]);
    accept_all(&mut bench, &[stop(1)]);
    refuse_all(&mut bench, 15, &[open_ballot(1, 1), open_ballot(1, 0)]);
    let clean: Vec<Event> = listing(true).into_iter().skip(1).collect();
    let mut bench = bench_after(&[ballot_lock(2, 1)]);
    accept_all(&mut bench, &clean);
    assert_eq!(outcomes(&bench), [Some(MOVE); 2]);
    refuse_all(&mut bench, 29, &[open_ballot(1, 1), open_ballot(2, 2)]);
}

#[test]
fn questions_before_28() {
    let open = open_ballot(9, 0);
    let carry = deliver_ballot(ASK, 9, 1, 0);
    refuse_all(&mut Bench::default(), 5, &[open, carry]);
    let mut bench = bench_after(&[ballot_lock(3, 2)]);
    refuse_all(&mut bench, 7, &[open, open_ballot(0, 1), carry, deliver_ballot(PUT, 2, 2, 1)]);
    refuse_all(&mut bench, 14, &[open_ballot(1, 0), deliver_ballot(ASK, 1, 2, 0)]);
    accept_all(&mut bench, &[order(1), stop(2)]);
    refuse_all(&mut bench, 15, &[open_ballot(2, 0), deliver_ballot(ASK, 1, 2, 0)]);
    // "between any two": no question 10.
    for (from, to) in [(1, 3), (3, 1)] {
        for kind in [ASK, PROMISE, PUT, TAKEN] {
            refuse_all(&mut bench, 28, &[0, 256, u32::MAX].map(|b| deliver_ballot(kind, from, to, b)));
            refuse_all(&mut bench, 17, &[1, 255].map(|b| deliver_ballot(kind, from, to, b)));
        }
    }
    refuse_all(&mut bench, 6, &[ballot_lock(3, 2), lock(3, 2)]);
    refuse_all(&mut bench, 4, &[ballot_lock(3, 3)]);
}

/// Question 17 names kind, sender, receiver and ballot.
#[test]
fn question_17_of_a_ballot() {
    let mut bench = words_put(&[MOVE, STAY, STAY]);
    accept_all(&mut bench, &[open_ballot(1, 1), open_ballot(1, 4)]);
    refuse_all(
        &mut bench,
        17,
        &[
            deliver_ballot(ASK, 1, 2, 7),
            deliver_ballot(ASK, 2, 1, 1),
            deliver_ballot(PUT, 1, 2, 1),
            deliver_ballot(PROMISE, 2, 1, 1),
            deliver_ballot(TAKEN, 2, 1, 1),
        ],
    );
    accept_all(&mut bench, &[deliver_ballot(ASK, 1, 2, 4), deliver_ballot(ASK, 1, 2, 1)]);
    refuse_all(&mut bench, 17, &[deliver_ballot(PROMISE, 2, 1, 1)]);
    accept_all(&mut bench, &[deliver_ballot(PROMISE, 2, 1, 4)]);
}

/// "Those standing by, and all at c = 0, take no part."
#[test]
fn no_ballots_with_an_arbiter() {
    let mut bench = bench_after(&[lock(3, 2), order(1)]);
    accept_all(&mut bench, &putting(&[MOVE, STAY, STAY]));
    refuse_all(&mut bench, 28, &[open_ballot(1, 2), open_ballot(1, 256)]);
    refuse_all(&mut bench, 29, &[open_ballot(1, 1), open_ballot(2, 2)]);
    refuse_all(&mut bench, 17, &[deliver_ballot(ASK, 1, 2, 1), deliver_ballot(TAKEN, 3, 1, 1)]);
    refuse_all(&mut bench, 28, &[deliver_ballot(ASK, 1, 2, 0)]);
    // Its question 18 is document 01's.
    accept_all(&mut bench, &[decision(1, STAY)]);
    refuse_all(&mut bench, 18, &[decision(2, MOVE)]);
}

/// The other way round: at c = 1 a word that was put is not given before a majority took it.
#[test]
fn question_18_without_an_arbiter() {
    let mut bench = words_put(&[MOVE, STAY, STAY]);
    refuse_all(&mut bench, 18, &[decision(1, STAY), decision(1, MOVE)]);
    accept_all(&mut bench, &up_to_put(1, 1, &[2]));
    refuse_all(&mut bench, 18, &[decision(1, STAY), decision(1, MOVE)]);
    accept_all(&mut bench, &[deliver_ballot(PUT, 1, 3, 1), decision(3, MOVE), decision(1, MOVE)]);
    assert_eq!(positions(&bench), [1, 0, 3]);
    // Sequence: 16 before 18.
    accept_all(&mut bench, &[decision(2, MOVE), order(2)]);
    refuse_all(&mut bench, 16, &[decision(2, MOVE)]);
}

/// With no assumption on an arbiter: any two outcomes of one order are the same, and each word given would also pass document
/// 01's question 18. Every message of a ballot can be written, and is read as it was.
#[test]
fn every_run_with_ballots_keeps_the_claims() {
    let mut rng = Rng::new(31);
    let (mut given, mut written) = (0, 0);
    for _ in 0..600 {
        let mut bench = Bench::default();
        let mut seen = None;
        for record in schedule(&mut rng).chunks(Event::LENGTH) {
            let before = bench.clone();
            if bench.step_record(record) != 0 {
                assert_eq!(bench, before);
                continue;
            }
            let lock = bench.lock().expect("a lock");
            match Event::read(record) {
                Ok(Event::Order { .. }) => seen = None,
                Ok(Event::Decision { verdict, .. }) if lock.has_ballots() => {
                    let before = before.lock().expect("a lock");
                    assert!(before.is_proposed(verdict));
                    assert!(before.decision().is_none_or(|other| other == verdict));
                    given += 1;
                }
                _ => {}
            }
            for outcome in lock.controllers().iter().filter_map(|c| c.outcome()) {
                assert_eq!(*seen.get_or_insert(outcome), outcome);
            }
            if let Some(message) = lock.ballots_sent().last() {
                let mut bytes = vec![0; message.form().length()];
                assert_eq!(message.write(&mut bytes), 0);
                assert_eq!(Telegram::read(&bytes), Ok(Telegram::Ballot(*message)));
                written += 1;
            }
        }
    }
    assert!(given > 1_000 && written > 1_000);
}

/// The bench program, from the bytes: c = 1, an opening, a delivery with its ballot, an unlisted c.
#[test]
fn bench_program_with_ballots() {
    let mut records = schedule_of(&[MOVE, STAY, STAY]);
    let events = records.len() / Event::LENGTH;
    for (kind, a, b, c, ballot) in [
        (10, 1, 0, 0, 1),
        (10, 1, 0, 0, 2),
        (10, 1, 1, 0, 4),
        (3, 1, 3, 5, 1),
        (3, 1, 3, 5, 0),
        (3, 1, 3, 5, 4),
        (3, 1, 3, 1, 1),
        (3, 1, 3, 9, 1),
        (0, 3, 2, 2, 0),
    ] {
        records.extend([0x4C, 0x45, kind, a, b, c, 0, 0, 0, ballot]);
    }
    let report = bench_report(&records);
    let answers: Vec<&str> = report.lines().skip(events).take(9).collect();
    let expected = [0, 28, 3, 0, 28, 17, 3, 3, 3];
    for (place, answer) in expected.iter().enumerate() {
        assert_eq!(answers[place], format!("{} {answer}", events + place));
    }
}

fn schedule_of(words: &[Verdict]) -> Vec<u8> {
    let n = words.len() as u8;
    let mut events = vec![ballot_lock(n, n - 1), order(1)];
    events.extend(putting(words));
    crate::support::schedule(&events)
}
