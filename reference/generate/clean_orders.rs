//! Clean orders that end everywhere (document 02, U10).

use crate::group::Group;
use crate::message_kind::MessageKind;
use crate::records::event::Event;
use crate::rng::Rng;

/// A lock and one clean order of it, in which every controller comes to an outcome; `unwilling` votes so, if it is
/// given. Each part of the order comes in drawn sequence, with deliveries that are repeated and saves in between.
pub fn clean_order(rng: &mut Rng, group: Group, unwilling: Option<u8>) -> Vec<Event> {
    let vote = |id| Event::Vote {
        id,
        willing: Some(id) != unwilling,
        target: i32::from(id) * 100,
    };
    let timeout = |id| Event::Timeout { id };
    let twice = |id: &u8| group.has_two_timeouts(*id);
    let parts: [Vec<Event>; 5] = [
        group.ids().map(vote).collect(),
        deliveries(group, MessageKind::Vote),
        group.ids().filter(twice).map(timeout).collect(),
        deliveries(group, MessageKind::Ack),
        group.ids().map(timeout).collect(),
    ];
    let ballots = false;
    let mut events = vec![Event::Lock { group, ballots }, Event::Order { number: 1 }];
    for mut part in parts {
        rng.shuffle(&mut part);
        for event in part {
            events.push(event);
            if matches!(event, Event::Deliver { .. }) && rng.chance(1, 20) {
                events.push(event);
            }
            if rng.chance(1, 20) {
                let id = rng.between(1, usize::from(group.n)) as u8;
                events.push(Event::Save { id });
            }
        }
    }
    events
}

/// Every telegram of a kind, delivered.
fn deliveries(group: Group, kind: MessageKind) -> Vec<Event> {
    let of = |from| {
        let receivers = group.receivers(kind, from);
        receivers
            .iter()
            .map(move |to| Event::Deliver { from, to, kind })
    };
    group.ids().flat_map(of).collect()
}
