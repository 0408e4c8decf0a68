//! How a sheet may fail to suit its kind, by the sentences of question 9, one controller at a time.

use crate::records::message::{Message, MessageKind};

pub struct Fault {
    pub name: &'static str,
    pub is_in: fn(&Message) -> bool,
}

pub const FAULTS: [Fault; 7] = [
    // "No bit above n;"
    Fault {
        name: "messages with a bit above n",
        is_in: |m| {
            let mut ids = m.votes.known.iter().chain(m.votes.willing.iter());
            ids.any(|id| id > m.group.n)
        },
    },
    // "willing within known;"
    Fault {
        name: "messages with willing outside known",
        is_in: |m| m.votes.willing.iter().any(|id| !m.votes.known.contains(id)),
    },
    // "a vote knows just its sender;"
    Fault {
        name: "votes that do not know their sender",
        is_in: |m| m.kind == MessageKind::Vote && !knows_sender(m),
    },
    Fault {
        name: "votes that know another too",
        is_in: |m| m.kind == MessageKind::Vote && knows_sender(m) && m.votes.known.count() > 1,
    },
    // "a help call knows nobody;"
    Fault {
        name: "help calls with a sheet",
        is_in: |m| m.kind == MessageKind::Help && m.votes.known.count() > 0,
    },
    // "kinds 2 and 4 know at least their sender."
    Fault {
        name: "acknowledgements that do not know their sender",
        is_in: |m| m.kind == MessageKind::Ack && !knows_sender(m),
    },
    Fault {
        name: "help answers that do not know their sender",
        is_in: |m| m.kind == MessageKind::Helped && !knows_sender(m),
    },
];

fn knows_sender(message: &Message) -> bool {
    message.votes.known.contains(message.from)
}
