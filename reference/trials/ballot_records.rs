//! Document 02, U14: telegrams in their four forms, read and written, with every refusal.

use crate::support::*;
use reference::ballot::BallotKind;
use reference::frame;
use reference::group::Group;
use reference::records::ballot_message::BallotMessage;
use reference::records::form::Form;
use reference::records::telegram::Telegram;
use reference::vote_set::Verdict;

/// A vote of 1 to 2 and a promise of 3 to 1 for ballot 4 that reports ballot 2 with Move, up to 16 controllers and from 17 up.
const SHORT: [u8; 16] = [0x4C, 0x4B, 1, 3, 2, 1, 2, 0, 0, 0, 0, 9, 0, 1, 0, 1];
const LONG: [u8; 20] = [
    0x4C, 0x4C, 1, 17, 2, 1, 2, 0, 0, 0, 0, 9, 0, 0, 0, 1, 0, 0, 0, 1,
];
const SHORT_BALLOT: [u8; 20] = [
    0x4C, 0x4B, 6, 3, 2, 3, 1, 0, 0, 0, 0, 9, 0, 0, 0, 0, 4, 2, 2, 0,
];
const LONG_BALLOT: [u8; 24] = [
    0x4C, 0x4C, 6, 17, 2, 3, 1, 0, 0, 0, 0, 9, 0, 0, 0, 0, 0, 0, 0, 0, 4, 2, 2, 0,
];
const FORMS: [(&[u8], Form); 4] = [
    (&SHORT, Form::Short),
    (&LONG, Form::Long),
    (&SHORT_BALLOT, Form::ShortBallot),
    (&LONG_BALLOT, Form::LongBallot),
];

fn promise(n: u8) -> BallotMessage {
    BallotMessage {
        kind: PROMISE,
        group: Group { n, f: 2 },
        from: 3,
        to: 1,
        order: 9,
        ballot: 4,
        last: 2,
        word: Some(MOVE),
    }
}

/// The answer to the bytes with some of them changed, 0 where they are read.
fn refusal(bytes: &[u8], changes: &[(usize, u8)]) -> u8 {
    let mut bytes = bytes.to_vec();
    for &(at, byte) in changes {
        bytes[at] = byte;
    }
    Telegram::read(&bytes).err().unwrap_or(0)
}

#[test]
fn four_forms() {
    assert_eq!(Telegram::read(&SHORT_BALLOT), Ok(Telegram::Ballot(promise(3))));
    assert_eq!(Telegram::read(&LONG_BALLOT), Ok(Telegram::Ballot(promise(17))));
    for (bytes, form) in FORMS {
        let telegram = Telegram::read(bytes).expect("a telegram");
        assert_eq!(telegram.form(), form);
        let mut buffer = vec![0xA5; bytes.len()];
        assert_eq!(telegram.write(&mut buffer), 0);
        assert_eq!(buffer, bytes);
        for length in (0..40).filter(|&length| length != bytes.len()) {
            let mut buffer = vec![0xA5; length];
            assert_eq!(telegram.write(&mut buffer), 1);
            assert_eq!(buffer, vec![0xA5; length]);
        }
    }
}

/// The line that README.md has, and the same telegram to be written.
#[test]
fn frames() {
    let reading = frame::reading(frame::READ_MESSAGE, &SHORT_BALLOT);
    assert_eq!(frame::line(&reading).as_deref(), Ok("= 6 3 2 3 1 9 0 0 4 2 2"));
    let mut writing = [0; frame::LENGTH];
    writing[..7].copy_from_slice(&[frame::WRITE_MESSAGE, 20, 6, 3, 2, 3, 1]);
    writing[10] = 9;
    writing[19..22].copy_from_slice(&[4, 2, 2]);
    assert_eq!(writing, frame::writing_telegram(20, &Telegram::Ballot(promise(3))));
    let expected = "W 0 4c4b0603020301000000000900000000";
    assert_eq!(frame::line(&writing), Ok(format!("{expected}04020200")));
    // A word above 2 names no value; nor does a sheet with a ballot, or a ballot without its kinds.
    for (at, byte) in [(21, 3), (14, 1), (2, 1), (2, 9)] {
        let mut frame = writing;
        frame[at] = byte;
        assert!(frame::line(&frame).is_err());
    }
}

/// "20 bytes now admit either mark, 24 just 4C 4C"; 16 just 4C 4B.
#[test]
fn lengths_and_marks() {
    for length in 0..40 {
        let answer = if [16, 20, 24].contains(&length) { 2 } else { 1 };
        assert_eq!(Telegram::read(&vec![0; length]), Err(answer));
    }
    for (bytes, form) in FORMS {
        assert_eq!(refusal(bytes, &[(0, 0x4D)]), 2, "{form:?}");
        assert_eq!(refusal(bytes, &[(1, 0x53), (2, 0)]), 2, "{form:?}");
    }
    assert_eq!(refusal(&SHORT, &[(1, 0x4C)]), 2);
    assert_eq!(refusal(&LONG_BALLOT, &[(1, 0x4B)]), 2);
    // The mark of the other form of 20 bytes, which the kind does not suit.
    assert_eq!([refusal(&LONG, &[(1, 0x4B)]), refusal(&SHORT_BALLOT, &[(1, 0x4C)])], [3, 3]);
}

/// "a word above 2, or a kind that does not suit mark and length, gets 3"
#[test]
fn kinds_words_and_bytes_that_are_0() {
    for (bytes, form) in FORMS {
        for kind in 0..=255 {
            let suits = if form.has_ballot() { 5..=8 } else { 1..=4 };
            let answer = refusal(bytes, &[(2, kind)]);
            assert_eq!(answer == 3, !suits.contains(&kind), "{form:?} {kind}");
        }
        assert_eq!(refusal(bytes, &[(7, 1), (3, 0)]), 3, "{form:?}");
        if form.has_ballot() {
            let more = bytes.len() - 4;
            assert_eq!(refusal(bytes, &[(more + 2, 1)]), 0);
            assert_eq!(refusal(bytes, &[(more + 2, 3), (3, 0)]), 3);
            assert_eq!(refusal(bytes, &[(more + 2, 255)]), 3);
            assert_eq!(refusal(bytes, &[(more + 3, 1), (3, 0)]), 3);
        }
    }
}

/// 4 before 7 before 8 before 9 before 10 before 28, in each form.
#[test]
fn sequence_of_the_questions() {
    for (bytes, form) in FORMS {
        // n of the other width; n and f out of range.
        let other = if form.is_long() { 16 } else { 17 };
        assert_eq!(refusal(bytes, &[(3, other), (5, 0)]), 4, "{form:?}");
        for change in [(3, 0), (3, 1), (3, 33), (4, 0), (4, bytes[3])] {
            assert_eq!(refusal(bytes, &[change, (5, 0)]), 4, "{form:?}");
        }
        let n = bytes[3];
        let order_0 = (11, 0);
        for change in [(5, 0), (5, n + 1), (6, 0), (6, n + 1), (6, bytes[5])] {
            assert_eq!(refusal(bytes, &[change, order_0]), 7, "{form:?}");
        }
        // The lowest bit of known.
        let known = if form.is_long() { 15 } else { 13 };
        let spoilt = (known, bytes[known] ^ 1);
        assert_eq!(refusal(bytes, &[order_0, spoilt]), 8, "{form:?}");
        if form.has_ballot() {
            assert_eq!(refusal(bytes, &[spoilt, (bytes.len() - 4, 0)]), 9, "{form:?}");
        } else {
            // A vote of 1 knows just 1; one of 3 may not go to 3, nor to any but the backups 1 and 2.
            assert_eq!(refusal(bytes, &[spoilt, (6, 4.min(n))]), 9, "{form:?}");
            let known = if form.is_long() { [15, 19] } else { [13, 15] };
            let of_3 = known.map(|at| (at, 4));
            let to_2 = [&[(5, 3)], &of_3[..]].concat();
            assert_eq!(refusal(bytes, &to_2), 0, "{form:?}");
        }
    }
    assert_eq!(refusal(&LONG, &[(6, 4)]), 10);
}

/// 9 by kind: last, word and the answer.
#[test]
fn last_and_word_by_kind() {
    let rows: [(BallotKind, &[(u8, u8, u8)]); 4] = [
        (ASK, &[(0, 0, 0), (1, 0, 9), (0, 1, 9), (0, 2, 9), (2, 2, 9)]),
        (
            PROMISE,
            &[(0, 0, 0), (1, 1, 0), (4, 2, 0), (5, 1, 9), (255, 1, 9), (2, 0, 9), (0, 1, 9), (0, 2, 9)],
        ),
        (PUT, &[(0, 1, 0), (0, 2, 0), (0, 0, 9), (1, 1, 9), (1, 0, 9)]),
        (TAKEN, &[(0, 1, 0), (0, 2, 0), (0, 0, 9), (4, 2, 9), (1, 0, 9)]),
    ];
    for (bytes, n) in [(&SHORT_BALLOT[..], 3), (&LONG_BALLOT[..], 17)] {
        let more = bytes.len() - 4;
        for (kind, cases) in rows {
            for &(last, word, answer) in cases {
                let changes = [(2, kind.number()), (more + 1, last), (more + 2, word)];
                assert_eq!(refusal(bytes, &changes), answer, "{kind:?} {last} {word}");
                let word = [None, Some(STAY), Some(MOVE)][usize::from(word)];
                assert_eq!(written(kind, n, 4, last, word), answer);
            }
        }
    }
}

/// "with empty sheets": any bit of known or willing gets 9.
#[test]
fn sheets_are_empty() {
    for bytes in [&SHORT_BALLOT[..], &LONG_BALLOT[..]] {
        for at in 12..bytes.len() - 4 {
            for byte in [1, 128] {
                assert_eq!(refusal(bytes, &[(at, byte)]), 9, "{at}");
            }
        }
    }
}

/// 28 after 9; "between any two", so that 10 refuses none.
#[test]
fn ballots_and_ways() {
    for (bytes, n) in [(&SHORT_BALLOT[..], 3), (&LONG_BALLOT[..], 17)] {
        let more = bytes.len() - 4;
        assert_eq!(refusal(bytes, &[(more, 0)]), 9);
        assert_eq!(refusal(bytes, &[(more, 0), (more + 1, 0), (more + 2, 0)]), 28);
        assert_eq!(refusal(bytes, &[(more, 255), (more + 1, 255)]), 0);
        for kind in BallotKind::ALL {
            let word = matches!(kind, PUT | TAKEN).then_some(STAY);
            assert_eq!(written(kind, n, 0, 0, word), 28);
            for from in 1..=n {
                for to in (1..=n).filter(|&to| to != from) {
                    let word = word.map_or(0, |_| 1);
                    let changes = [(2, kind.number()), (5, from), (6, to), (more + 1, 0), (more + 2, word)];
                    assert_eq!(refusal(bytes, &changes), 0);
                }
            }
        }
    }
}

/// The answer to writing a message of 3 to 1; a refused write leaves its buffer untouched.
fn written(kind: BallotKind, n: u8, ballot: u8, last: u8, word: Option<Verdict>) -> u8 {
    let message = BallotMessage {
        kind,
        ballot,
        last,
        word,
        ..promise(n)
    };
    let mut buffer = vec![0xA5; message.form().length()];
    let answer = message.write(&mut buffer);
    assert_eq!(answer == 0, buffer != vec![0xA5; buffer.len()]);
    answer
}

#[test]
fn writes_refused() {
    for (n, other) in [(3, 24), (17, 20)] {
        let right = promise(n);
        let group = |n, f| Group { n, f };
        for (message, length, answer) in [
            (right, right.form().length(), 0),
            (right, 16, 1),
            (right, other, 1),
            (BallotMessage { group: group(n, 0), from: 0, ..right }, right.form().length(), 4),
            (BallotMessage { group: group(n, n), ..right }, right.form().length(), 4),
            (BallotMessage { from: 0, order: 0, ..right }, right.form().length(), 7),
            (BallotMessage { to: 3, order: 0, ..right }, right.form().length(), 7),
            (BallotMessage { order: 0, last: 5, ..right }, right.form().length(), 8),
            (BallotMessage { ballot: 0, ..right }, right.form().length(), 9),
        ] {
            let mut buffer = vec![0xA5; length];
            assert_eq!(message.write(&mut buffer), answer, "{message:?}");
        }
    }
    // Out of range, n still tells the form: 0 and 1 the short one, 33 and more the long one.
    for (n, length) in [(0, 20), (1, 20), (33, 24), (255, 24)] {
        assert_eq!(promise(n).write(&mut vec![0; length]), 4);
        assert_eq!(promise(n).write(&mut vec![0; 44 - length]), 1);
    }
}
