//! The search through every state of ballots (document 02, U14): it finds what a broken rule does, and its rules are the bench's.

use crate::support::*;
use reference::ballot::Taking;
use reference::bench::Bench;
use reference::records::event::Event;
use reference::rng::Rng;
use reference::search::model::{Action, Fault, Site, State};
use reference::search::search;
use reference::vote_set::Verdict;

fn site(words: &[Verdict], ballots: &[u8], fault: Option<Fault>) -> Site {
    Site {
        words: words.to_vec(),
        ballots: ballots.to_vec(),
        stops: false,
        fault,
    }
}

const FAULTS: [Fault; 9] = [
    Fault::TakingDoesNotRaise,
    Fault::PromiseDoesNotRaise,
    Fault::TakesBelow,
    Fault::OwnerTakesBelow,
    Fault::HalfRoundedDown,
    Fault::HalfSuffices,
    Fault::OwnWord,
    Fault::LowestReported,
    Fault::OwnPromiseReportsNothing,
];

/// A site on which the fault shows: n/2 is no majority where n is even.
fn where_it_shows(fault: Fault) -> Site {
    match fault {
        Fault::HalfSuffices => site(&[MOVE, STAY, STAY, STAY], &[1, 2], Some(fault)),
        _ => site(&[MOVE, STAY, STAY], &[1, 2, 4], Some(fault)),
    }
}

#[test]
fn right_rules_choose_one_word() {
    let found = search(&site(&[MOVE, STAY, STAY], &[1, 2, 4], None));
    assert_eq!(found.violation, None);
    assert!(found.states > 10_000 && found.contested > 1_000);
    assert!(found.chosen.iter().all(|&states| states > 1_000));
    for words in [[MOVE, STAY], [STAY, STAY]] {
        assert_eq!(search(&site(&words, &[1, 2, 3, 4], None)).violation, None);
    }
}

/// A stopped controller does what one does to which nothing comes any more: each state, and who of three is stopped.
#[test]
fn stops_reach_nothing_else() {
    let without = site(&[MOVE, STAY, STAY], &[1, 2, 4], None);
    let with = Site {
        stops: true,
        ..without.clone()
    };
    let (without, with) = (search(&without), search(&with));
    assert_eq!((with.states, with.violation), (8 * without.states, None));
}

#[test]
fn broken_rules_are_found() {
    for fault in FAULTS {
        let found = search(&where_it_shows(fault));
        assert!(found.violation.is_some(), "{fault:?}");
    }
}

/// What leads to two words under a broken rule does not on the bench.
#[test]
fn bench_has_none_of_the_faults() {
    for fault in FAULTS {
        let site = where_it_shows(fault);
        let mut bench = words_put(&site.words);
        for action in search(&site).violation.expect("a way to two words") {
            bench.step(&event(&site, action));
        }
        let lock = bench.lock().expect("a lock");
        assert!(!(lock.is_chosen(STAY) && lock.is_chosen(MOVE)), "{fault:?}");
    }
}

/// Random ways through the states: the model and the bench go together.
#[test]
fn model_and_bench_agree() {
    let mut rng = Rng::new(30);
    let sites = [
        site(&[MOVE, STAY], &[1, 2, 3], None),
        site(&[MOVE, STAY, STAY], &[1, 2, 4], None),
        site(&[STAY, MOVE, MOVE], &[1, 2, 3, 4], None),
        site(&[MOVE, STAY, STAY, MOVE], &[1, 2, 5], None),
    ];
    for site in sites.map(|site| Site { stops: true, ..site }) {
        let begin = words_put(&site.words);
        for _ in 0..400 {
            let (mut state, mut bench) = (State::default(), begin.clone());
            loop {
                assert_same(&site, &state, &bench);
                try_impossible(&site, &state, &bench, &mut rng);
                let mut actions = state.actions(&site);
                if rng.chance(9, 10) {
                    actions.retain(|action| !matches!(action, Action::Stop { .. }));
                }
                if actions.is_empty() {
                    break;
                }
                let action = rng.pick(&actions);
                assert_eq!(bench.step(&event(&site, action)), 0, "{action:?}");
                state = state.after(&site, action);
            }
        }
    }
}

/// An action that changes nothing in the model is refused by the bench, or changes nothing there.
fn try_impossible(site: &Site, state: &State, bench: &Bench, rng: &mut Rng) {
    let ballot = rng.below(site.ballots.len());
    let id = rng.below(site.n());
    let actions = [
        Action::Open { ballot },
        Action::Ask { ballot, to: id },
        Action::Promise { ballot, from: id },
        Action::Put { ballot, to: id },
    ];
    let action = rng.pick(&actions);
    if !state.is_possible(site, action) {
        let mut after = bench.clone();
        after.step(&event(site, action));
        assert_eq!(after, *bench, "{action:?}");
    }
}

fn event(site: &Site, action: Action) -> Event {
    let id = |place: usize| place as u8 + 1;
    let number = |place: usize| u32::from(site.ballots[place]);
    let owner = |place: usize| id(site.owner(place));
    match action {
        Action::Open { ballot } => open_ballot(owner(ballot), number(ballot)),
        Action::Ask { ballot, to } => deliver_ballot(ASK, owner(ballot), id(to), number(ballot)),
        Action::Promise { ballot, from } => {
            deliver_ballot(PROMISE, id(from), owner(ballot), number(ballot))
        }
        Action::Put { ballot, to } => deliver_ballot(PUT, owner(ballot), id(to), number(ballot)),
        Action::Stop { id: place } => stop(id(place)),
    }
}

fn assert_same(site: &Site, state: &State, bench: &Bench) {
    let lock = bench.lock().expect("a lock");
    let number = |place: u8| match place {
        0 => 0,
        place => site.ballots[usize::from(place) - 1],
    };
    for (controller, acceptor) in lock.controllers().iter().zip(state.acceptors) {
        let Some(part) = controller.ballots() else {
            assert!(acceptor.is_stopped);
            continue;
        };
        assert_eq!(part.highest_promise(), number(acceptor.promise));
        let last = part.last_taken().map_or(0, |taking| taking.ballot);
        assert_eq!(last, number(acceptor.last));
    }
    for (&ballot, in_state) in site.ballots.iter().zip(state.ballots) {
        let takers = |word| lock.takers(Taking { ballot, word });
        for id in 0..site.n() {
            let is_taken = in_state.put.is_some_and(|word| takers(word).contains(id as u8 + 1));
            assert_eq!(is_taken, in_state.taken[id]);
        }
    }
    for word in [STAY, MOVE] {
        assert_eq!(lock.is_chosen(word), state.is_chosen(site, word));
    }
}
