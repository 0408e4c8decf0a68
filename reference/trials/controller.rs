//! One controller off the bench.

use crate::support::*;
use reference::controller::{Answer, Controller};
use reference::group::Group;
use reference::members::Members;
use reference::records::checkpoint::Checkpoint;
use reference::records::message::{Message, MessageKind};
use reference::vote_set::VoteSet;

/// n = 4, f = 2: backups 1 and 2, second backup 3.
const GROUP: Group = Group { n: 4, f: 2 };

fn controller(id: u8) -> Controller {
    Controller::new(GROUP, id, 9)
}

fn votes(known: u32, willing: u32) -> VoteSet {
    VoteSet {
        known: Members(known),
        willing: Members(willing),
    }
}

fn message(kind: MessageKind, from: u8, to: u8, votes: VoteSet) -> Message {
    Message {
        kind,
        group: GROUP,
        from,
        to,
        order: 9,
        votes,
    }
}

/// The receivers and the votes of what the call sent, all of one kind.
fn sent(answer: &Answer) -> Vec<(MessageKind, u32, VoteSet)> {
    let sendings = answer.sent.iter();
    sendings.map(|s| (s.kind, s.receivers.0, s.votes)).collect()
}

fn assert_passed_over(controller: &mut Controller, message: &Message) {
    let before = controller.clone();
    assert_eq!(
        controller.receive(message),
        Answer::passed_over(),
        "{message:?}"
    );
    assert_eq!(*controller, before, "{message:?}");
}

#[test]
fn receivers_of_votes() {
    let receivers = [0b0110, 0b0101, 0b0011, 0b0011];
    let phases = [1, 1, 1, 2];
    for id in GROUP.ids() {
        let mut controller = controller(id);
        let answer = controller.vote(id == 1, 5);
        let vote = VoteSet::single(id, id == 1);
        let index = usize::from(id) - 1;
        assert_eq!(sent(&answer), [(VOTE, receivers[index], vote)]);
        assert_eq!(controller.phase(), Some(phases[index]));
        assert!(!controller.vote(true, 5).is_taken());
    }
}

#[test]
fn receivers_of_acknowledgements() {
    for (id, receivers) in [(1, 0b1110), (2, 0b1101), (3, 0b0011)] {
        let mut controller = controller(id);
        controller.vote(true, 5);
        let answer = controller.timeout();
        assert_eq!(sent(&answer), [(ACK, receivers, VoteSet::single(id, true))]);
        assert_eq!(controller.phase(), Some(2));
    }
}

#[test]
fn backup_needs_the_second_backup_to_know_all_backups() {
    // (what 3 acknowledges, the word put or else the outcome)
    for (second, proposal) in [
        (0b0111, None),
        (0b0011 | 0b0100, None),
        (0b0110, Some(MOVE)),
    ] {
        let mut backup = controller(1);
        backup.vote(true, 5);
        for from in [2, 3, 4] {
            assert!(backup
                .receive(&message(VOTE, from, 1, VoteSet::single(from, true)))
                .is_taken());
        }
        backup.timeout();
        assert!(backup
            .receive(&message(ACK, 2, 1, votes(0b1111, 0b1111)))
            .is_taken());
        assert!(backup
            .receive(&message(ACK, 3, 1, votes(second, second)))
            .is_taken());
        let answer = backup.timeout();
        assert_eq!(answer.proposal, proposal);
        assert_eq!(
            backup.outcome(),
            if proposal.is_none() { Some(MOVE) } else { None }
        );
        assert_eq!(backup.position(), if proposal.is_none() { 5 } else { 0 });
    }
}

#[test]
fn others_need_complete_acknowledgements_of_all_backups() {
    for (acks, outcome, proposal) in [
        (
            vec![(1, 0b1111, 0b1111), (2, 0b1111, 0b1111)],
            Some(MOVE),
            None,
        ),
        (
            vec![(1, 0b1111, 0b1101), (2, 0b1111, 0b1101)],
            Some(STAY),
            None,
        ),
        (
            vec![(1, 0b1111, 0b1111), (2, 0b0111, 0b0111)],
            None,
            Some(MOVE),
        ),
        (
            vec![(1, 0b0001, 0b0001), (2, 0b1110, 0b1110)],
            None,
            Some(MOVE),
        ),
        (vec![(1, 0b1111, 0b1111)], None, Some(MOVE)),
        (vec![(2, 0b1011, 0b1011)], None, Some(STAY)),
    ] {
        for id in [3, 4] {
            let mut other = controller(id);
            other.vote(true, -3);
            if id == 3 {
                other.timeout();
            }
            for &(from, known, willing) in &acks {
                let ack = message(ACK, from, id, votes(known, willing));
                assert!(other.receive(&ack).is_taken());
            }
            let answer = other.timeout();
            assert_eq!(
                (other.outcome(), answer.proposal),
                (outcome, proposal),
                "{acks:?}"
            );
            assert_eq!(other.position(), if outcome == Some(MOVE) { -3 } else { 0 });
        }
    }
}

#[test]
fn second_backup_does_not_count_its_own_acknowledgement() {
    let mut second = controller(3);
    second.vote(true, 0);
    second.receive(&message(VOTE, 1, 3, VoteSet::single(1, true)));
    second.timeout();
    let answer = second.timeout();
    assert_eq!(sent(&answer), [(HELP, 0b1000, VoteSet::EMPTY)]);
    assert!(second.is_waiting());
    // The help sheet has what the own sheet had.
    let answer = second.receive(&message(HELP, 4, 3, VoteSet::EMPTY));
    assert_eq!(sent(&answer), [(HELPED, 0b1000, votes(0b0101, 0b0101))]);
    // The word is that of the join of all help answers.
    let helped = message(HELPED, 4, 3, votes(0b1010, 0b1010));
    assert_eq!(second.receive(&helped).proposal, Some(MOVE));
    assert_passed_over(&mut second, &helped);
    assert_passed_over(&mut second, &message(ACK, 1, 3, votes(0b1111, 0b1111)));
}

/// "of the join of acknowledgements if it holds any": one late acknowledgement outweighs the help answers.
#[test]
fn late_acknowledgement_gives_the_word() {
    let mut other = controller(4);
    other.vote(true, 0);
    other.timeout();
    let ack = message(ACK, 2, 4, votes(0b0111, 0b0111));
    assert_eq!(other.receive(&ack).proposal, Some(STAY));
    let group = Group { n: 5, f: 2 };
    let mut other = Controller::new(group, 4, 9);
    other.vote(true, 0);
    other.timeout();
    let to_4 = |kind, from, known| Message {
        group,
        ..message(kind, from, 4, votes(known, known))
    };
    assert_eq!(other.receive(&to_4(HELPED, 5, 0b11111)).proposal, None);
    assert_passed_over(&mut other, &to_4(HELPED, 5, 0b10000));
    assert_eq!(other.receive(&to_4(ACK, 1, 0b00001)).proposal, Some(STAY));
}

/// "tested at the bell too": that can hold where n − f = 1.
#[test]
fn word_at_the_second_timeout() {
    let group = Group { n: 3, f: 2 };
    let mut last = Controller::new(group, 3, 9);
    last.vote(true, 0);
    for from in [1, 2] {
        let vote = message(VOTE, from, 3, VoteSet::single(from, true));
        assert!(last.receive(&Message { group, ..vote }).is_taken());
    }
    last.timeout();
    let answer = last.timeout();
    assert!(answer.sent.is_empty());
    assert_eq!(answer.proposal, Some(MOVE));
    assert!(!last.is_waiting());
}

#[test]
fn one_acknowledgement_per_sender_is_the_first() {
    let mut other = controller(4);
    let first = message(ACK, 1, 4, votes(0b1111, 0b1111));
    let second = message(ACK, 1, 4, votes(0b1111, 0));
    assert!(other.receive(&first).is_taken());
    assert_passed_over(&mut other, &first);
    assert_passed_over(&mut other, &second);
}

#[test]
fn misled_messages_are_passed_over() {
    let mut backup = controller(1);
    let vote = message(VOTE, 2, 1, VoteSet::single(2, true));
    let wrong = [
        Message { order: 8, ..vote },
        Message { order: 10, ..vote },
        Message { to: 3, ..vote },
        Message { from: 1, ..vote },
        Message { from: 0, ..vote },
        Message { from: 5, ..vote },
        Message { from: 255, ..vote },
        Message {
            group: Group { n: 5, f: 2 },
            ..vote
        },
        Message {
            group: Group { n: 4, f: 1 },
            ..vote
        },
        message(ACK, 4, 1, VoteSet::single(4, true)),
        message(HELP, 3, 1, VoteSet::EMPTY),
        message(HELPED, 3, 1, VoteSet::single(3, true)),
    ];
    for message in &wrong {
        assert_passed_over(&mut backup, message);
    }
    assert!(backup.receive(&vote).is_taken());
}

#[test]
fn help_answer_to_one_not_waiting_is_passed_over() {
    let mut other = controller(4);
    let helped = message(HELPED, 3, 4, votes(0b1111, 0b1111));
    assert_passed_over(&mut other, &helped);
    other.vote(true, 0);
    assert_passed_over(&mut other, &helped);
    other.receive(&message(ACK, 1, 4, votes(0b1111, 0b1111)));
    other.timeout();
    assert_passed_over(&mut other, &helped);
}

#[test]
fn wrong_phase_or_condition_changes_nothing() {
    let mut other = controller(4);
    assert!(!other.timeout().is_taken() && !other.decide(MOVE).is_taken());
    other.vote(true, 7);
    assert!(!other.decide(MOVE).is_taken());
    other.timeout();
    assert!(!other.timeout().is_taken() && !other.vote(true, 0).is_taken());
    assert!(other.decide(MOVE).is_taken() && other.decide(STAY).is_taken());
    assert_eq!((other.outcome(), other.position()), (Some(MOVE), 7));
    let card = other.save().expect("a card");
    assert!(!other.restore(&card).is_taken());
    assert!(other.stop().is_taken() && !other.stop().is_taken());
    assert!(
        !other.timeout().is_taken()
            && !other.vote(true, 0).is_taken()
            && !other.decide(STAY).is_taken()
    );
    assert_eq!(other.save(), None);
    assert_eq!((other.outcome(), other.position()), (None, 7));
    let old = Checkpoint {
        order: 8,
        position: 1,
        ..card
    };
    let mut restored = other.clone();
    assert!(restored.restore(&old).is_taken());
    assert_eq!((restored.outcome(), restored.position()), (None, 7));
    assert!(restored.decide(STAY).is_taken());
    assert_eq!(restored.outcome(), Some(STAY));
    assert!(other.restore(&card).is_taken() && other.decide(STAY).is_taken());
    assert_eq!((other.outcome(), other.position()), (Some(MOVE), 7));
    assert_passed_over(&mut other, &message(HELP, 3, 4, VoteSet::EMPTY));
}

#[test]
fn new_order_reaches_a_stopped_one_as_a_number_alone() {
    let mut other = controller(4);
    other.stop();
    assert!(other.new_order(10).is_taken());
    assert!(other.is_stopped());
    assert_eq!(other.order(), 10);
    let card = Checkpoint {
        id: 4,
        group: GROUP,
        outcome: Some(MOVE),
        order: 10,
        position: 0,
    };
    other.restore(&card);
    assert_eq!(other.outcome(), Some(MOVE));
    other.new_order(11);
    assert_eq!((other.phase(), other.outcome()), (Some(0), None));
}
