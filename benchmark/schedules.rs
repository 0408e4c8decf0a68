//! The schedules that are measured besides the generated ones, each of some 4,000 events.

use reference::group::Group;
use reference::records::event::Event;
use reference::records::message::MessageKind;

const MOST: usize = 4_096;

/// Clean orders of that lock, all willing, one after the other, as many whole ones as there is room for.
pub fn clean_orders(n: u8, f: u8) -> Vec<u8> {
    let group = Group { n, f };
    let mut records = vec![record(Event::Lock { group, ballots: false })];
    let mut number = 0;
    loop {
        number += 1;
        let order = clean_order(group, number);
        if records.len() + order.len() > MOST {
            return records.concat();
        }
        records.extend(order);
    }
}

/// The vote telegrams of one order at n = 16, f = 15, delivered again and again.
pub fn repeated_deliveries() -> Vec<u8> {
    let group = Group { n: 16, f: 15 };
    let mut records = vec![record(Event::Lock { group, ballots: false }), record(Event::Order { number: 1 })];
    records.extend(votes(group));
    let deliveries = deliveries(group, MessageKind::Vote);
    let again = deliveries.iter().cycle().take(MOST - records.len());
    let records: Vec<[u8; 10]> = records.iter().chain(again).copied().collect();
    records.concat()
}

/// No record is accepted: other marks, unlisted values, a lock that cannot be, and every other event with no lock set up.
pub fn refused() -> Vec<u8> {
    let mut other_mark = record(Event::Timeout { id: 1 });
    other_mark[1] = 0x46;
    let mut unlisted = record(Event::Timeout { id: 1 });
    unlisted[2] = 9;
    let mut unused = record(Event::Timeout { id: 1 });
    unused[9] = 1;
    let records = [
        other_mark,
        record(Event::Deliver { from: 1, to: 2, kind: MessageKind::Vote }),
        unlisted,
        record(Event::Vote { id: 3, willing: true, target: 500 }),
        record(Event::Lock { group: Group { n: 33, f: 1 }, ballots: false }),
        unused,
        record(Event::Timeout { id: 16 }),
        record(Event::Order { number: 1 }),
        other_mark,
        record(Event::Deliver { from: 16, to: 1, kind: MessageKind::Helped }),
        record(Event::Stop { id: 4 }),
        record(Event::Save { id: 5 }),
        record(Event::Restore { id: 6 }),
    ];
    let all: Vec<[u8; 10]> = records.into_iter().cycle().take(MOST).collect();
    all.concat()
}

fn clean_order(group: Group, number: u32) -> Vec<[u8; 10]> {
    let mut records = vec![record(Event::Order { number })];
    records.extend(votes(group));
    records.extend(deliveries(group, MessageKind::Vote));
    let two_timeouts = group.ids().filter(|&id| group.has_two_timeouts(id));
    records.extend(two_timeouts.map(|id| record(Event::Timeout { id })));
    records.extend(deliveries(group, MessageKind::Ack));
    records.extend(group.ids().map(|id| record(Event::Timeout { id })));
    records
}

fn votes(group: Group) -> Vec<[u8; 10]> {
    let vote = |id| Event::Vote { id, willing: true, target: 100 * i32::from(id) - 800 };
    group.ids().map(|id| record(vote(id))).collect()
}

/// Each telegram of that kind, once.
fn deliveries(group: Group, kind: MessageKind) -> Vec<[u8; 10]> {
    let mut records = Vec::new();
    for from in group.ids() {
        for to in group.receivers(kind, from).iter() {
            records.push(record(Event::Deliver { from, to, kind }));
        }
    }
    records
}

fn record(event: Event) -> [u8; 10] {
    let mut bytes = [0; 10];
    event.write(&mut bytes);
    bytes
}
