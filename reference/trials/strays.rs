//! Document 02, U7: sheets that contradict each other, put to one controller off the bench.

use crate::support::*;
use reference::command::Command;
use reference::contradictions::Contradictions;
use reference::controller::Reception::{self, Contradicted, PassedOver, Taken};
use reference::controller::{Answer, Controller};
use reference::group::Group;
use reference::members::Members;
use reference::records::message::{Message, MessageKind};
use reference::vote_set::VoteSet;

/// Backups 1 and 2, second backup 3; a waiting controller puts a word with n − f = 4 answers.
const GROUP: Group = Group { n: 6, f: 2 };
const ORDER: u32 = 9;

#[derive(Clone, Copy, Debug)]
enum Step {
    /// The own vote, willing or not.
    Votes(bool),
    Bell,
    /// A telegram of that kind and sender. In its sheet `4+` has controller 4 willing and `4-` has it unwilling.
    Gets(MessageKind, u8, &'static str),
}
use Step::{Bell, Gets, Votes};

/// What is put to a controller, and what becomes of each step. The answer is 0 where it is taken or passed over, and 24 where it is
/// contradicted.
struct Stray {
    case: &'static str,
    sentence: &'static str,
    id: u8,
    steps: &'static [(Step, Reception)],
}

const STRAYS: &[Stray] = &[
    // A vote against each kind of sheet that is held before the first bell.
    Stray {
        case: "vote against own sheet",
        sentence: "a sheet that has controller 4 willing when another has it unwilling",
        id: 1,
        steps: &[
            (Gets(VOTE, 4, "4-"), Taken),
            (Gets(VOTE, 4, "4+"), Contradicted),
            (Gets(VOTE, 4, "4-"), Taken),
            (Votes(true), Taken),
            (Gets(VOTE, 4, "4+"), Contradicted),
        ],
    },
    Stray {
        case: "vote against acknowledgement",
        sentence: "takes the telegram as not received",
        id: 1,
        steps: &[
            (Gets(ACK, 2, "2+ 4-"), Taken),
            (Gets(VOTE, 4, "4+"), Contradicted),
            (Gets(VOTE, 4, "4-"), Taken),
        ],
    },
    // An acknowledgement against each kind.
    Stray {
        case: "acknowledgement against own sheet",
        sentence: "takes the telegram as not received",
        id: 1,
        steps: &[
            (Gets(VOTE, 4, "4-"), Taken),
            (Gets(ACK, 2, "2+ 4+"), Contradicted),
            (Gets(ACK, 2, "2+ 4-"), Taken),
            (Gets(ACK, 3, "3+"), Taken),
        ],
    },
    Stray {
        case: "acknowledgement against the own vote",
        sentence: "a delivered sheet that contradicts one held",
        id: 4,
        steps: &[
            (Votes(false), Taken),
            (Gets(ACK, 1, "1+ 2+ 3+ 4+ 5+ 6+"), Contradicted),
            (Gets(ACK, 1, "1+ 2+ 3+ 4- 5+ 6+"), Taken),
        ],
    },
    Stray {
        case: "acknowledgement against acknowledgement",
        sentence: "a delivered sheet that contradicts one held",
        id: 4,
        steps: &[
            (Gets(ACK, 1, "1+ 5-"), Taken),
            (Gets(ACK, 2, "2+ 5+"), Contradicted),
            (Votes(true), Taken),
            (Gets(ACK, 2, "2+ 5+"), Contradicted),
            (Gets(ACK, 2, "1- 2+"), Contradicted),
            (Gets(ACK, 2, "1+ 2+ 5- 6+"), Taken),
        ],
    },
    Stray {
        case: "acknowledgement against help answer",
        sentence: "a contradiction among its own sheet, acknowledgements and help answers",
        id: 4,
        steps: &[
            (Votes(true), Taken),
            (Bell, Taken),
            (Gets(HELPED, 5, "5- 6+"), Taken),
            (Gets(ACK, 1, "1+ 5+"), Contradicted),
            (Gets(ACK, 1, "1+ 6-"), Contradicted),
            (Gets(ACK, 1, "1+ 5- 6+"), Taken),
        ],
    },
    // A help answer against each kind.
    Stray {
        case: "help answer against own sheet",
        sentence: "a contradiction among its own sheet, acknowledgements and help answers",
        id: 4,
        steps: &[
            (Votes(true), Taken),
            (Bell, Taken),
            (Gets(HELPED, 5, "4- 5+"), Contradicted),
            (Gets(HELPED, 5, "4+ 5+"), Taken),
        ],
    },
    Stray {
        case: "help answer against acknowledgement",
        sentence: "a contradiction among its own sheet, acknowledgements and help answers",
        id: 4,
        steps: &[
            (Votes(true), Taken),
            (Bell, Taken),
            (Gets(ACK, 1, "1+ 2-"), Taken),
            (Gets(HELPED, 5, "2+ 5+"), Contradicted),
            (Gets(HELPED, 5, "2- 5+"), Taken),
        ],
    },
    Stray {
        case: "help answer against help answer",
        sentence: "a contradiction among its own sheet, acknowledgements and help answers",
        id: 4,
        steps: &[
            (Votes(true), Taken),
            (Bell, Taken),
            (Gets(HELPED, 5, "5-"), Taken),
            (Gets(HELPED, 6, "5+ 6+"), Contradicted),
            (Gets(HELPED, 3, "3+ 5+"), Contradicted),
            (Gets(HELPED, 6, "6+"), Taken),
        ],
    },
    // A help call has nothing to contradict.
    Stray {
        case: "help call",
        sentence: "a help call knows nobody",
        id: 4,
        steps: &[
            (Gets(ACK, 1, "1+ 5-"), Taken),
            (Gets(HELP, 5, ""), Taken),
            (Gets(HELP, 6, "5+"), PassedOver),
            (Gets(HELP, 6, ""), Taken),
        ],
    },
    // Passed over anyway.
    Stray {
        case: "second acknowledgement",
        sentence: "One that is passed over anyway, as a sender's second acknowledgement or answer, is not tested.",
        id: 4,
        steps: &[
            (Gets(ACK, 1, "1+ 5-"), Taken),
            (Gets(ACK, 1, "1+ 5+"), PassedOver),
            (Votes(true), Taken),
            (Gets(ACK, 1, "1- 4-"), PassedOver),
        ],
    },
    Stray {
        case: "second help answer",
        sentence: "One that is passed over anyway, as a sender's second acknowledgement or answer, is not tested.",
        id: 4,
        steps: &[
            (Votes(true), Taken),
            (Bell, Taken),
            (Gets(HELPED, 5, "5+"), Taken),
            (Gets(HELPED, 5, "4- 5-"), PassedOver),
        ],
    },
    Stray {
        case: "late vote",
        sentence: "at stage 0 or 1 it goes on the sheet; later it is passed over",
        id: 1,
        steps: &[
            (Gets(VOTE, 4, "4-"), Taken),
            (Votes(true), Taken),
            (Gets(VOTE, 4, "4+"), Contradicted),
            (Bell, Taken),
            (Gets(VOTE, 4, "4+"), PassedOver),
        ],
    },
    Stray {
        case: "after a word put",
        sentence: "After a word or an outcome, more of either is passed over.",
        id: 4,
        steps: &[
            (Votes(true), Taken),
            (Gets(HELPED, 5, "4- 5+"), PassedOver),
            (Gets(ACK, 1, "1+ 4+"), Taken),
            (Bell, Taken),
            (Gets(ACK, 2, "2+ 4-"), PassedOver),
            (Gets(HELPED, 5, "4- 5+"), PassedOver),
        ],
    },
    Stray {
        case: "by a way that question 10 has not",
        sentence: "last of all questions",
        id: 1,
        steps: &[
            (Gets(VOTE, 4, "4-"), Taken),
            (Gets(ACK, 4, "4+"), PassedOver),
            (Gets(HELPED, 4, "4+"), PassedOver),
        ],
    },
    Stray {
        case: "with a sheet that question 9 refuses",
        sentence: "last of all questions",
        id: 1,
        steps: &[
            (Gets(VOTE, 4, "4-"), Taken),
            (Gets(VOTE, 5, "4+"), PassedOver),
            (Gets(VOTE, 5, "4+ 5+"), PassedOver),
            (Gets(VOTE, 4, "4+ 7+"), PassedOver),
            (Gets(ACK, 2, "4+"), PassedOver),
            (Gets(ACK, 2, "2+ 4+ 7-"), PassedOver),
            (Gets(ACK, 2, "2+ 4+ 5?"), PassedOver),
            (Gets(ACK, 2, "2+ 4+"), Contradicted),
        ],
    },
    // The own vote, which is never refused.
    Stray {
        case: "dropped, and its sender received again",
        sentence: "also one already held that its own vote contradicts",
        id: 4,
        steps: &[
            (Gets(ACK, 1, "1+ 4-"), Taken),
            (Gets(ACK, 2, "2+"), Taken),
            (Votes(true), Taken),
            (Gets(ACK, 1, "1+ 4-"), Contradicted),
            (Gets(ACK, 1, "1+ 4+"), Taken),
            (Gets(ACK, 1, "1+ 4-"), PassedOver),
            (Gets(ACK, 2, "2+ 4-"), PassedOver),
        ],
    },
    Stray {
        case: "both dropped",
        sentence: "also one already held that its own vote contradicts",
        id: 1,
        steps: &[
            (Gets(ACK, 2, "1+ 2+"), Taken),
            (Gets(ACK, 3, "1+ 3+"), Taken),
            (Votes(false), Taken),
            (Gets(ACK, 3, "1- 3-"), Taken),
            (Gets(ACK, 2, "1- 2-"), Taken),
        ],
    },
    Stray {
        case: "kept, with the vote's word or none of it",
        sentence: "also one already held that its own vote contradicts",
        id: 4,
        steps: &[
            (Gets(ACK, 1, "1+ 4-"), Taken),
            (Gets(ACK, 2, "2+ 5+"), Taken),
            (Votes(false), Taken),
            (Gets(ACK, 1, "1- 4+"), PassedOver),
            (Gets(ACK, 2, "2- 5-"), PassedOver),
        ],
    },
    Stray {
        case: "what the dropped one said is held no longer",
        sentence: "also one already held that its own vote contradicts",
        id: 1,
        steps: &[
            (Gets(ACK, 2, "1- 2+ 5-"), Taken),
            (Gets(VOTE, 5, "5+"), Contradicted),
            (Votes(true), Taken),
            (Gets(VOTE, 5, "5+"), Taken),
            (Gets(ACK, 3, "2- 3+ 5+"), Taken),
        ],
    },
];

/// `4+` is known and willing, `4-` known alone, `4?` willing alone.
fn sheet(text: &str) -> VoteSet {
    let mut votes = VoteSet::EMPTY;
    for entry in text.split(' ').filter(|entry| !entry.is_empty()) {
        let (id, says) = entry.split_at(1);
        let controller = Members::only(id.parse().expect("a controller"));
        if says != "?" {
            votes.known = votes.known.union(controller);
        }
        if says != "-" {
            votes.willing = votes.willing.union(controller);
        }
    }
    votes
}

fn command(step: Step, to: u8) -> Command {
    match step {
        Votes(willing) => Command::Vote { willing, target: 0 },
        Bell => Command::Timeout,
        Gets(kind, from, text) => Command::Receive(Message {
            kind,
            group: GROUP,
            from,
            to,
            order: ORDER,
            votes: sheet(text),
        }),
    }
}

fn fresh(id: u8) -> Controller {
    Controller::new(GROUP, id, ORDER)
}

#[test]
fn every_stray_is_answered_as_document_02_has_it() {
    for stray in STRAYS {
        let Stray {
            case,
            sentence,
            id,
            steps,
        } = *stray;
        let mut controller = fresh(id);
        for &(step, reception) in steps {
            let before = controller.clone();
            let (answer, _) = command(step, id).call(&mut controller);
            assert_eq!(answer.reception, reception, "{case} ({sentence}): {step:?}");
            if reception != Taken {
                assert_eq!(controller, before, "{case} ({sentence}): {step:?}");
            }
        }
        // As if what was not taken had never come.
        let taken = steps.iter().filter(|(_, reception)| *reception == Taken);
        let mut without = fresh(id);
        for &(step, _) in taken {
            command(step, id).call(&mut without);
        }
        assert_eq!(controller, without, "{case} ({sentence})");
    }
}

/// "Joining now says so instead of taking either."
#[test]
fn joining_says_so_where_two_contradict() {
    for (one, other, joined) in [
        ("4+", "4-", None),
        ("4-", "4+", None),
        ("1+ 2+ 3-", "2- 4+", None),
        ("4+", "4+", Some("4+")),
        ("4-", "4-", Some("4-")),
        ("4-", "", Some("4-")),
        ("1+ 2- 3-", "1+ 4+", Some("1+ 2- 3- 4+")),
    ] {
        assert_eq!(
            sheet(one).join(sheet(other)),
            joined.map(sheet),
            "{one}, {other}"
        );
        assert_eq!(
            sheet(other).join(sheet(one)),
            joined.map(sheet),
            "{other}, {one}"
        );
    }
}

/// A telegram that is not received does not count either: with none held at the second bell the controller waits.
#[test]
fn what_is_not_received_is_not_counted() {
    for (steps, acks) in [
        (&[Gets(ACK, 1, "1+ 4-"), Votes(true)][..], Members::NONE),
        (&[Votes(true), Gets(ACK, 1, "1+ 4-")], Members::NONE),
        (&[Gets(ACK, 1, "1+ 4-"), Votes(false)], Members::only(1)),
        (&[Votes(false), Gets(ACK, 1, "1+ 4-")], Members::only(1)),
    ] {
        let mut controller = fresh(4);
        for &step in steps {
            command(step, 4).call(&mut controller);
        }
        assert_eq!(controller.acks_held(), acks, "{steps:?}");
        let answer = controller.timeout();
        // "puts the word of their join", or "waits, sends help calls to all others of f + 1 to n"
        let waits = acks.is_empty();
        assert_eq!(controller.is_waiting(), waits, "{steps:?}");
        assert_eq!(answer.proposal, (!waits).then_some(STAY), "{steps:?}");
        let called = answer.sent.iter().map(|sending| sending.receivers.0);
        assert!(called.eq(waits.then_some(0b110100)), "{steps:?}");
    }
}

/// A waiting controller puts its word with n − f = 4 that agree; those refused by 24 in between are not among them.
#[test]
fn word_is_that_of_the_sheets_received() {
    let mut controller = fresh(4);
    for step in [
        Votes(true),
        Bell,
        Gets(HELPED, 5, "1+ 2+ 5+"),
        Gets(HELPED, 6, "2- 6+"),
        Gets(HELPED, 3, "3+ 5-"),
        Gets(HELPED, 3, "3+ 5+"),
    ] {
        let (answer, _) = command(step, 4).call(&mut controller);
        assert_eq!(answer.proposal, None, "{step:?}");
    }
    let (answer, _) = command(Gets(HELPED, 6, "2+ 6+"), 4).call(&mut controller);
    assert_eq!(answer.proposal, Some(MOVE));
}

/// The test that the comparison makes of every answer finds one that is wrong.
#[test]
fn wrong_answers_are_found() {
    let held = [Gets(VOTE, 4, "4-"), Gets(ACK, 2, "2+")];
    let agrees = Gets(ACK, 3, "3+ 4-");
    let contradicts = Gets(ACK, 3, "3+ 4+");
    let second = Gets(ACK, 2, "2-");
    let unsuited = Gets(VOTE, 5, "5+ 6+");
    for (step, right) in [
        (agrees, Taken),
        (contradicts, Contradicted),
        (second, PassedOver),
        (unsuited, PassedOver),
    ] {
        for reception in [Taken, PassedOver, Contradicted] {
            let mut met = Contradictions::default();
            let mut controller = fresh(1);
            for step in held {
                assert_eq!(told(&mut met, &mut controller, step, Taken), Ok(()));
            }
            let found = told(&mut met, &mut controller, step, reception);
            assert_eq!(found.is_ok(), reception == right, "{step:?}: {reception:?}");
        }
    }
}

/// A 24 that changes something is found, and so is a vote that keeps what it contradicts.
#[test]
fn wrong_changes_are_found() {
    let mut met = Contradictions::default();
    let mut before = fresh(1);
    assert_eq!(
        told(&mut met, &mut before, Gets(ACK, 2, "1- 2+"), Taken),
        Ok(())
    );
    let contradicts = command(Gets(ACK, 3, "2- 3+"), 1);
    let mut changed = before.clone();
    changed.stop();
    let refused = Answer::contradicted();
    let puts = refused.clone().proposing(Some(STAY));
    assert!(met
        .clone()
        .add(&contradicts, &before, &changed, &refused)
        .is_err());
    assert!(met
        .clone()
        .add(&contradicts, &before, &before, &puts)
        .is_err());
    assert_eq!(
        met.clone().add(&contradicts, &before, &before, &refused),
        Ok(())
    );
    let vote = command(Votes(true), 1);
    assert!(met
        .clone()
        .add(&vote, &before, &before, &Answer::taken())
        .is_err());
    assert_eq!(told(&mut met, &mut before, Votes(true), Taken), Ok(()));
}

/// Puts a step to a controller and tells the test that it was answered so, whatever the controller answered.
fn told(
    met: &mut Contradictions,
    controller: &mut Controller,
    step: Step,
    reception: Reception,
) -> Result<(), String> {
    let before = controller.clone();
    let command = command(step, controller.id());
    let (answer, _) = command.call(controller);
    met.add(
        &command,
        &before,
        controller,
        &Answer {
            reception,
            ..answer
        },
    )
}
