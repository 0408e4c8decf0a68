//! Records read and written.

use reference::group::Group;
use reference::members::Members;
use reference::records::checkpoint::Checkpoint;
use reference::records::event::Event;
use reference::records::message::{Form, Message, MessageKind};
use reference::records::telegram::Telegram;
use reference::vote_set::{Verdict, VoteSet};

/// An acknowledgement of 1 to 3, in a group of 5 with 2 backups.
const ACK_BYTES: [u8; 16] = [
    0x4C, 0x4B, 2, 5, 2, 1, 3, 0, 0, 0, 1, 2, 0, 0b10011, 0, 0b10001,
];
const CHECKPOINT_BYTES: [u8; 14] = [
    0x4C, 0x53, 4, 5, 2, 1, 255, 255, 255, 255, 255, 255, 0xB1, 0xE0,
];

fn ack() -> Message {
    Message {
        kind: MessageKind::Ack,
        group: Group { n: 5, f: 2 },
        from: 1,
        to: 3,
        order: 258,
        votes: VoteSet {
            known: Members(0b10011),
            willing: Members(0b10001),
        },
    }
}

fn card() -> Checkpoint {
    Checkpoint {
        id: 4,
        group: Group { n: 5, f: 2 },
        outcome: Some(Verdict::Stay),
        order: u32::MAX,
        position: -20_000,
    }
}

/// The answer to the bytes with some of them changed.
fn message_refusal(changes: &[(usize, u8)]) -> u8 {
    let mut bytes = ACK_BYTES;
    for &(at, byte) in changes {
        bytes[at] = byte;
    }
    Telegram::read(&bytes).err().unwrap_or(0)
}

fn checkpoint_refusal(changes: &[(usize, u8)]) -> u8 {
    let mut bytes = CHECKPOINT_BYTES;
    for &(at, byte) in changes {
        bytes[at] = byte;
    }
    Checkpoint::read(&bytes).err().unwrap_or(0)
}

#[test]
fn forms() {
    assert_eq!(Telegram::read(&ACK_BYTES), Ok(Telegram::Votes(ack())));
    assert_eq!(Checkpoint::read(&CHECKPOINT_BYTES), Ok(card()));
    let mut buffer = [0xA5; 16];
    assert_eq!(ack().write(&mut buffer), 0);
    assert_eq!(buffer, ACK_BYTES);
    assert_eq!(card().write(&mut buffer[..14]), 0);
    assert_eq!(buffer[..14], CHECKPOINT_BYTES);
}

#[test]
fn messages_refused() {
    assert_eq!(Telegram::read(&ACK_BYTES[..15]), Err(1));
    assert_eq!(Telegram::read(&[]), Err(1));
    // 2 before 3 before 4 before 7 before 8 before 9 before 10.
    let order_0 = [(10, 0), (11, 0)];
    assert_eq!(message_refusal(&[(1, 0x53), (2, 0)]), 2);
    assert_eq!(message_refusal(&[(2, 5), (3, 17)]), 3);
    assert_eq!(message_refusal(&[(7, 1), (3, 17)]), 3);
    assert_eq!(message_refusal(&[(3, 17), (5, 0)]), 4);
    assert_eq!(message_refusal(&[(4, 5), (5, 0)]), 4);
    assert_eq!(message_refusal(&[(5, 6), order_0[0], order_0[1]]), 7);
    assert_eq!(message_refusal(&[(6, 1), order_0[0], order_0[1]]), 7);
    assert_eq!(message_refusal(&[order_0[0], order_0[1], (13, 0)]), 8);
    // A bit above n, willing outside known, the sender unknown.
    assert_eq!(message_refusal(&[(13, 0b110011), (5, 4)]), 9);
    assert_eq!(message_refusal(&[(15, 0b10101), (5, 4)]), 9);
    assert_eq!(message_refusal(&[(5, 4)]), 9);
    assert_eq!(message_refusal(&[(5, 5)]), 10);
    assert_eq!(message_refusal(&[(5, 2)]), 0);
}

/// Document 02, U12: the acknowledgement of 1 to 17, all but 16 willing, byte for byte; and n on both sides of 16.
#[test]
fn long_form() {
    let bytes: [u8; 20] = [
        0x4C, 0x4C, 2, 17, 16, 1, 17, 0, 0, 0, 0, 7, 0, 1, 0xFF, 0xFF, 0, 1, 0x7F, 0xFF,
    ];
    let wide = Message {
        group: Group { n: 17, f: 16 },
        to: 17,
        order: 7,
        votes: VoteSet {
            known: Members(0x1_FFFF),
            willing: Members(0x1_7FFF),
        },
        ..ack()
    };
    assert_eq!(Telegram::read(&bytes), Ok(Telegram::Votes(wide)));
    let mut buffer = [0xA5; 20];
    assert_eq!(wide.write(&mut buffer), 0);
    assert_eq!(buffer, bytes);
    assert_eq!(wide.write(&mut buffer[..16]), 1);
    assert_eq!(ack().write(&mut buffer), 1);
    assert_eq!(buffer, bytes);
    let read = |changes: &[(usize, u8)]| {
        let mut bytes = bytes;
        for &(at, byte) in changes {
            bytes[at] = byte;
        }
        Telegram::read(&bytes).err().unwrap_or(0)
    };
    // "a mark of the other length gets 2"; U14: "20 bytes now admit either mark", but kinds 1 to 4 one of them
    assert_eq!(message_refusal(&[(1, 0x4C), (2, 0)]), 2);
    assert_eq!(read(&[(1, 0x4D), (2, 0)]), 2);
    assert_eq!([read(&[(1, 0x4B), (2, 0)]), read(&[(1, 0x4B)])], [3, 3]);
    // "The long form with n below 17, and the short form with n above 16, get 4", after 3 and before 7
    assert_eq!(read(&[(2, 5), (3, 16), (4, 15)]), 3);
    assert_eq!(read(&[(3, 16), (4, 15), (5, 0)]), 4);
    assert_eq!(message_refusal(&[(3, 17), (4, 16), (5, 0)]), 4);
    assert_eq!(read(&[(3, 33)]), 4);
    assert_eq!(read(&[(5, 18)]), 7);
    assert_eq!(read(&[(13, 3)]), 9);
    for length in 0..40 {
        let admitted = Form::ALL.iter().any(|form| form.length() == length);
        assert_eq!(Telegram::read(&vec![0; length]), Err(if admitted { 2 } else { 1 }));
    }
}

#[test]
fn votes_by_kind() {
    // A vote of 1 knows just 1.
    let vote = |known| message_refusal(&[(2, 1), (13, known), (15, 0)]);
    assert_eq!([vote(1), vote(0), vote(2), vote(3)], [0, 9, 9, 9]);
    // A help call of 4 to 3 knows nobody, its answer at least 4.
    let help = |kind, known| message_refusal(&[(2, kind), (5, 4), (13, known), (15, 0)]);
    assert_eq!([help(3, 0), help(3, 8), help(3, 1)], [0, 9, 9]);
    assert_eq!(
        [help(4, 8), help(4, 31), help(4, 0), help(4, 7)],
        [0, 0, 9, 9]
    );
}

#[test]
fn checkpoints_refused() {
    assert_eq!(Checkpoint::read(&[0; 15]), Err(1));
    assert_eq!(checkpoint_refusal(&[(1, 0x4B), (5, 3)]), 2);
    assert_eq!(checkpoint_refusal(&[(5, 3), (3, 1)]), 3);
    assert_eq!(checkpoint_refusal(&[(3, 1), (2, 0)]), 4);
    let order_0 = [(6, 0), (7, 0), (8, 0), (9, 0)];
    assert_eq!(checkpoint_refusal(&[&[(2, 6)], &order_0[..]].concat()), 7);
    assert_eq!(checkpoint_refusal(&[&[(12, 0)], &order_0[..]].concat()), 8);
    // −20,001
    assert_eq!(checkpoint_refusal(&[(13, 0xDF)]), 11);
}

/// A bit above n is seen in all 32 that a set in memory has.
#[test]
fn writes_refused() {
    let mut buffer = [0xA5; 16];
    let wide = |known, willing| Message {
        votes: VoteSet {
            known: Members(known),
            willing: Members(willing),
        },
        ..ack()
    };
    for (message, number) in [
        (wide(0x1_0011, 0), 9),
        (wide(0x8000_0001, 0x8000_0001), 9),
        (wide(1, 0x1_0000), 9),
        (Message { order: 0, ..ack() }, 8),
        (
            Message {
                from: 5,
                ..wide(0b10000, 0)
            },
            10,
        ),
    ] {
        assert_eq!(message.write(&mut buffer), number);
    }
    let far = Checkpoint {
        position: 20_001,
        ..card()
    };
    assert_eq!(far.write(&mut buffer[..14]), 11);
    assert_eq!(far.write(&mut buffer[..13]), 1);
    assert_eq!(Event::Stop { id: 1 }.write(&mut buffer[..9]), 1);
    assert_eq!(buffer, [0xA5; 16]);
}

/// Every event of one byte changed: the flags listed, the unused fields 0.
#[test]
fn events_refused() {
    let read = |kind, a, b, c, value| {
        let event = Event::read(&[0x4C, 0x45, kind, a, b, c, 0, 0, 0, value]);
        event.err().unwrap_or(0)
    };
    // By kind: whether a, b, c and value are used.
    let used = [
        [true, true, true, false],
        [false, false, false, true],
        [true, true, false, true],
        [true, true, true, false],
        [true, false, false, false],
        [true, true, false, false],
        [true, false, false, false],
        [true, false, false, false],
        [true, false, false, false],
        [false, false, false, false],
    ];
    for (kind, [a, b, c, value]) in (0..).zip(used) {
        let listed = u8::from(kind == 3);
        let answer = |is_used| if is_used { 0 } else { 3 };
        assert_eq!(read(kind, 0, 0, listed, 0), 0);
        assert_eq!(read(kind, 1, 0, listed, 0), answer(a));
        assert_eq!(read(kind, 0, 1, listed, 0), answer(b));
        assert_eq!(read(kind, 0, 0, 1, 0), answer(c));
        assert_eq!(read(kind, 0, 0, listed, 1), answer(value));
    }
    assert_eq!([read(0, 1, 2, 2, 0), read(0, 1, 2, 1, 1)], [3, 3]);
    assert_eq!([read(2, 1, 2, 0, 0), read(5, 1, 2, 0, 0)], [3, 3]);
    let delivery = [0, 4, 5, 8, 9].map(|kind| [read(3, 1, 2, kind, 0), read(3, 1, 2, kind, 1)]);
    assert_eq!(delivery, [[3, 3], [0, 3], [0, 0], [0, 0], [3, 3]]);
    let open = [(0, 0, 0), (1, 0, 0), (0, 1, 0), (0, 0, 1)].map(|(b, c, v)| read(10, 1, b, c, v));
    assert_eq!(open, [0, 3, 3, 0]);
    assert_eq!(read(11, 0, 0, 0, 0), 3);
    assert_eq!(Event::read(&[0x4C, 0x4B, 99, 0, 0, 0, 0, 0, 0, 0]), Err(2));
    assert_eq!(Event::read(&[0x4C, 0x45, 4, 1, 0, 0, 0, 0, 0]), Err(1));
}
