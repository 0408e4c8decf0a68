//! The kinds of message; a module of its own, since the routes (`group`) and the record (`records::message`) both use them.

/// "kind (1 vote, 2 acknowledgement, 3 help call, 4 help answer)"
#[derive(Clone, Copy, PartialEq, Eq, Debug)]
pub enum MessageKind {
    Vote = 1,
    Ack = 2,
    Help = 3,
    Helped = 4,
}

impl MessageKind {
    pub const ALL: [MessageKind; 4] = [
        MessageKind::Vote,
        MessageKind::Ack,
        MessageKind::Help,
        MessageKind::Helped,
    ];

    pub fn from_number(number: u8) -> Option<MessageKind> {
        Self::ALL.into_iter().find(|kind| kind.number() == number)
    }

    pub fn number(self) -> u8 {
        self as u8
    }

    /// The place of the kind in a table by kind.
    pub fn index(self) -> usize {
        self as usize - 1
    }
}
