//! Document 02, U14: one controller's part in ballots, off the bench.

use crate::support::*;
use reference::ballot::{BallotKind, Taking};
use reference::command::{self, Command};
use reference::controller::{Answer, Controller};
use reference::generate::commands;
use reference::group::Group;
use reference::records::ballot_message::BallotMessage;
use reference::rng::Rng;
use reference::text::controller_line;
use reference::vote_set::Verdict;

/// n = 5, f = 4; 1 owns ballots 1, 6, 11, ..; 2 owns 2, 7, 12, ..
const GROUP: Group = Group { n: 5, f: 4 };

/// Controller 1, which has put Stay.
fn owner() -> Controller {
    let mut owner = Controller::of_lock(GROUP, true, 1, 9);
    owner.vote(true, 5);
    owner.timeout();
    assert_eq!(owner.timeout().proposal, Some(STAY));
    owner
}

fn to_1(kind: BallotKind, from: u8, ballot: u8, last: u8, word: Option<Verdict>) -> BallotMessage {
    BallotMessage {
        kind,
        group: GROUP,
        from,
        to: 1,
        order: 9,
        ballot,
        last,
        word,
    }
}

fn promise(from: u8, ballot: u8, reported: Option<(u8, Verdict)>) -> BallotMessage {
    let (last, word) = reported.map_or((0, None), |(last, word)| (last, Some(word)));
    to_1(PROMISE, from, ballot, last, word)
}

/// Kind, receivers, ballot, last and word of what a call sent.
fn sent(answer: &Answer) -> Vec<(BallotKind, u32, u8, u8, Option<Verdict>)> {
    let sendings = answer.ballots_sent.iter();
    sendings
        .map(|s| (s.kind, s.receivers.0, s.ballot, s.last, s.word))
        .collect()
}

fn assert_passed_over(controller: &mut Controller, message: &BallotMessage) {
    let before = controller.clone();
    assert_eq!(controller.receive_ballot(message), Answer::passed_over(), "{message:?}");
    assert_eq!(*controller, before, "{message:?}");
}

fn state(controller: &Controller) -> (u8, Option<Taking>) {
    let part = controller.ballots().expect("a running one at c = 1");
    (part.highest_promise(), part.last_taken())
}

#[test]
fn opening_asks_all_others() {
    let mut owner = owner();
    let answer = owner.open_ballot(6);
    assert_eq!(sent(&answer), [(ASK, 0b11110, 6, 0, None)]);
    assert_eq!(state(&owner), (6, None));
    for ballot in [0, 6, 1, 2, 7, 255] {
        assert!(!owner.open_ballot(ballot).is_taken(), "{ballot}");
    }
    assert!(owner.open_ballot(251).is_taken());
    // Without a word put, stopped, standing by.
    let mut other = Controller::of_lock(GROUP, true, 1, 9);
    assert!(!other.open_ballot(1).is_taken());
    let card = owner.save().expect("a card");
    owner.stop();
    assert!(!owner.open_ballot(251).is_taken());
    owner.restore(&card);
    assert!(!owner.open_ballot(251).is_taken());
}

#[test]
fn answers_to_asks_and_puts() {
    let mut one = Controller::of_lock(GROUP, true, 1, 9);
    let answer = one.receive_ballot(&to_1(ASK, 2, 2, 0, None));
    assert_eq!(sent(&answer), [(PROMISE, 0b00010, 2, 0, None)]);
    assert_passed_over(&mut one, &to_1(ASK, 2, 2, 0, None));
    let answer = one.receive_ballot(&to_1(PUT, 4, 4, 0, Some(MOVE)));
    assert_eq!(sent(&answer), [(TAKEN, 0b01000, 4, 0, Some(MOVE))]);
    let taking = Taking {
        ballot: 4,
        word: MOVE,
    };
    assert_eq!(answer.taking, Some(taking));
    assert_eq!(state(&one), (4, Some(taking)));
    assert_passed_over(&mut one, &to_1(PUT, 4, 4, 0, Some(MOVE)));
    // Below the highest promise.
    assert_passed_over(&mut one, &to_1(PUT, 2, 2, 0, Some(STAY)));
    assert_passed_over(&mut one, &to_1(ASK, 3, 3, 0, None));
    // The ballot taken itself, then a higher one.
    let answer = one.receive_ballot(&to_1(ASK, 4, 4, 0, None));
    assert_eq!(sent(&answer), [(PROMISE, 0b01000, 4, 4, Some(MOVE))]);
    let answer = one.receive_ballot(&to_1(ASK, 2, 7, 0, None));
    assert_eq!(sent(&answer), [(PROMISE, 0b00010, 7, 4, Some(MOVE))]);
    assert_eq!(state(&one), (7, Some(taking)));
}

#[test]
fn a_majority_of_promises_brings_the_put() {
    let mut owner = owner();
    owner.open_ballot(1);
    assert_eq!(sent(&owner.receive_ballot(&promise(2, 1, None))), []);
    assert_passed_over(&mut owner, &promise(2, 1, None));
    let answer = owner.receive_ballot(&promise(3, 1, None));
    assert_eq!(sent(&answer), [(PUT, 0b11110, 1, 0, Some(STAY))]);
    let taking = Taking {
        ballot: 1,
        word: STAY,
    };
    assert_eq!((answer.taking, state(&owner)), (Some(taking), (1, Some(taking))));
    // Once per ballot; a taken changes nothing.
    assert_passed_over(&mut owner, &promise(4, 1, None));
    assert_passed_over(&mut owner, &to_1(TAKEN, 3, 1, 0, Some(STAY)));
    // Its own promise reports ballot 1, 4 a higher one: the word of the highest.
    owner.open_ballot(6);
    owner.receive_ballot(&promise(5, 6, None));
    let answer = owner.receive_ballot(&promise(4, 6, Some((3, MOVE))));
    assert_eq!(sent(&answer), [(PUT, 0b11110, 6, 0, Some(MOVE))]);
    // In the other sequence the same; ballot 2 reported is below 6, its own.
    owner.open_ballot(11);
    owner.receive_ballot(&promise(5, 11, Some((2, STAY))));
    let answer = owner.receive_ballot(&promise(4, 11, None));
    assert_eq!(sent(&answer), [(PUT, 0b11110, 11, 0, Some(MOVE))]);
}

/// "An owner's older ballots stay alive".
#[test]
fn an_owner_that_promised_a_higher_ballot() {
    let mut owner = owner();
    owner.open_ballot(1);
    owner.receive_ballot(&promise(2, 1, None));
    owner.receive_ballot(&to_1(PUT, 3, 3, 0, Some(MOVE)));
    let answer = owner.receive_ballot(&promise(4, 1, None));
    assert_eq!(sent(&answer), [(PUT, 0b11110, 1, 0, Some(STAY))]);
    assert_eq!(answer.taking, None);
    assert_eq!(state(&owner).0, 3);
    assert_eq!(state(&owner).1.map(|taking| taking.ballot), Some(3));
}

#[test]
fn what_is_passed_over() {
    let mut owner = owner();
    owner.open_ballot(6);
    let right = promise(2, 6, None);
    let ask = to_1(ASK, 2, 12, 0, None);
    let put = to_1(PUT, 2, 12, 0, Some(STAY));
    for message in [right, ask, put] {
        let Group { n, f } = GROUP;
        let misled = [
            BallotMessage { order: 8, ..message },
            BallotMessage { group: Group { n: 6, f }, ..message },
            BallotMessage { group: Group { n, f: 3 }, ..message },
            BallotMessage { to: 3, ..message },
            BallotMessage { from: 0, ..message },
            BallotMessage { from: 6, ..message },
            BallotMessage { from: 1, ..message },
            BallotMessage { ballot: 0, ..message },
            BallotMessage { last: 13, ..message },
        ];
        for message in misled {
            assert_passed_over(&mut owner, &message);
        }
    }
    // Not from the owner; not its own, or never opened.
    assert_passed_over(&mut owner, &to_1(ASK, 3, 12, 0, None));
    assert_passed_over(&mut owner, &to_1(PUT, 3, 12, 0, Some(STAY)));
    assert_passed_over(&mut owner, &to_1(ASK, 2, 11, 0, None));
    assert_passed_over(&mut owner, &promise(2, 12, None));
    assert_passed_over(&mut owner, &promise(2, 11, None));
    assert_passed_over(&mut owner, &to_1(TAKEN, 2, 11, 0, Some(STAY)));
    for message in [right, ask, put] {
        assert!(owner.clone().receive_ballot(&message).is_taken());
    }
    // A new order forgets; a stop ends everything.
    let mut later = owner.clone();
    later.new_order(10);
    assert_eq!(state(&later), (0, None));
    assert_passed_over(&mut later, &BallotMessage { order: 10, ..right });
    owner.stop();
    for message in [right, ask, put] {
        assert_passed_over(&mut owner, &message);
    }
    // c = 0.
    let mut plain = Controller::new(GROUP, 1, 9);
    for message in [right, ask, put] {
        assert_passed_over(&mut plain, &message);
    }
}

/// The lines of the controller program: those of README.md, and without ballots as before.
#[test]
fn lines() {
    let group = Group { n: 3, f: 2 };
    let mut controller = Controller::of_lock(group, true, 1, 9);
    let mut line = |command: Command| {
        let (answer, saved) = command.call(&mut controller);
        controller_line(&controller, &answer, saved)
    };
    let of_3 = |message| Command::ReceiveBallot(BallotMessage { group, ..message });
    let vote = Command::Vote {
        willing: true,
        target: 5,
    };
    assert_eq!(line(vote), "1 1 - 0 - 6:1:1 - - - 1>2 1>3 B 0 0 0");
    assert_eq!(line(Command::Timeout), "1 2 - 0 - - 6:1:1 - - 2>2 2>3 B 0 0 0");
    assert_eq!(line(Command::Timeout), "1 3 - 0 S - - - - B 0 0 0");
    assert_eq!(
        line(Command::OpenBallot(7)),
        "1 3 - 0 - - - - - B 7 0 0 5:7:0:0>2 5:7:0:0>3"
    );
    assert_eq!(
        line(of_3(to_1(PUT, 2, 8, 0, Some(MOVE)))),
        "1 3 - 0 - - - - - B 8 8 2 8:8:0:2>2"
    );
    assert_eq!(
        line(of_3(to_1(ASK, 3, 9, 0, None))),
        "1 3 - 0 - - - - - B 9 8 2 6:9:8:2>3"
    );
    assert_eq!(
        line(of_3(promise(2, 7, None))),
        "1 3 - 0 - - - - - B 9 8 2 7:7:0:1>2 7:7:0:1>3"
    );
    assert_eq!(line(of_3(promise(2, 7, None))), "0 3 - 0 - - - - - B 9 8 2");
    assert_eq!(line(Command::Save), "1 3 - 0 - - - - - K 0 9 0 B 9 8 2");
    assert_eq!(line(Command::Stop), "1 8 - 0 - - - - - B 0 0 0");
    let mut plain = Controller::new(GROUP, 1, 9);
    let (answer, saved) = Command::OpenBallot(1).call(&mut plain);
    assert_eq!(controller_line(&plain, &answer, saved), "0 0 - 0 - - - - -");
}

#[test]
fn commands_are_read_as_they_were_written() {
    let mut rng = Rng::new(32);
    for _ in 0..2_000 {
        for command in commands::sequence_with_ballots(&mut rng) {
            assert_eq!(Command::read(&command.bytes()), Some(command));
        }
    }
    let mut fresh = [0; command::LENGTH];
    fresh[8] = 2;
    assert_eq!(Command::read(&fresh), None);
    let mut telegram = [0; command::LENGTH];
    telegram[..2].copy_from_slice(&[3, 9]);
    assert_eq!(Command::read(&telegram), None);
    telegram[1] = 5;
    telegram[22] = 3;
    assert_eq!(Command::read(&telegram), None);
}
