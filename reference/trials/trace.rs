//! The trace, written out by hand from the rules.

use reference::trace::{trace, words_of};

fn traced(text: &str) -> String {
    String::from_utf8(trace(text.as_bytes())).expect("these traces are UTF-8")
}

/// What stands after the line of the last event.
fn last(text: &str) -> String {
    let all = traced(text);
    let at = all.rfind("> ").expect("an event");
    all[at..].split_once('\n').map_or(String::new(), |(_, rest)| rest.to_string())
}

#[test]
fn the_lock_shows_all_and_a_vote_one() {
    let expected = "> lock 3 1\n0 0 accepted\nC 1 0 - 0\nC 2 0 - 0\nC 3 0 - 0\n\
        > order 1\n1 0 accepted\n\
        > vote 1 willing 100\n2 0 accepted\nC 1 1 - 0\nsent vote 1 2\n";
    assert_eq!(traced("lock 3 1\n\n# blank\n order 1\nvote 1  willing 100 # gaps"), expected);
}

#[test]
fn refusals_in_words() {
    assert_eq!(last("bell 1"), format!("0 5 refused: {}\n", words_of(5)));
    assert_eq!(words_of(5), "Is a lock set up?");
    assert_eq!(words_of(19), "Has the controller a card?");
    assert_eq!(words_of(0), "");
    // Each that the bench can give has words.
    for question in (1..=19).chain([24, 26, 28, 29]) {
        assert!(words_of(question).ends_with('?'), "{question}");
    }
}

/// A line that is no event has no index.
#[test]
fn lines_that_are_no_event() {
    let expected = "- line 1: voet\n> lock 2 1\n0 0 accepted\nC 1 0 - 0\nC 2 0 - 0\n- line 3: end of line\n> order 1\n1 0 accepted\n";
    assert_eq!(traced("voet 1\nlock 2 1\nbell\norder 1\n"), expected);
}

const ASKED: &str = "lock 3 1 own-arbiter\norder 1\nvote 1 willing 1\nvote 2 willing 2\nvote 3 willing 3\n\
    bell 1\nbell 2\nbell 2\nbell 3\ndeliver help-call 3 2\n";

#[test]
fn a_waiting_controller_is_answered_and_puts_a_word() {
    assert_eq!(last(ASKED), "9 0 accepted\nsent help-answer 2 3\n");
    let answered = format!("{ASKED}deliver help-answer 2 3\n");
    assert_eq!(last(&answered), "10 0 accepted\nput 3 stay\n");
    let opened = format!("{answered}ballot 3 3\n");
    assert_eq!(last(&opened), "11 0 accepted\nsent ask 3 3 1\nsent ask 3 3 2\n");
    let promised = format!("{opened}deliver ask 3 3 2\ndeliver promise 3 2 3\n");
    assert_eq!(last(&promised), "13 0 accepted\nsent put 3 3 1\nsent put 3 3 2\n");
    let given = format!("{promised}deliver put 3 3 2\narbiter 3 stay\n");
    assert_eq!(last(&given), "15 0 accepted\nC 3 3 S 0\ngiven 3 stay\n");
}

/// "After a step back nothing is sent, put or given."
#[test]
fn steps_back() {
    let answered = format!("{ASKED}deliver help-answer 2 3\nback\n");
    assert_eq!(last(&answered), "11 0 accepted\nundone 10\n");
    let bell = format!("{ASKED}back\nbell 9\nback\n");
    assert_eq!(last(&bell), "12 0 accepted\nundone 8\nC 3 2 - 0\n");
    let saves = "save 1\n".repeat(65);
    let backs = "back\n".repeat(64);
    let all = traced(&format!("lock 2 1\norder 1\n{saves}{backs}back\n"));
    assert!(all.contains("130 0 accepted\nundone 3\n"), "{all}");
    assert!(all.ends_with(&format!("131 26 refused: {}\n", words_of(26))), "{all}");
}
