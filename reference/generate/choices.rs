//! Random values, in and out of the ranges of document 01.

use crate::group::{Group, MAX_CONTROLLERS};
use crate::members::Members;
use crate::questions::POSITIONS;
use crate::records::message::MessageKind;
use crate::rng::Rng;
use crate::vote_set::{Verdict, VoteSet};

/// A group of up to `most` controllers, with f at both ends and between.
pub fn group(rng: &mut Rng, most: u8) -> Group {
    let n = rng.between(2, most.into()) as u8;
    let f = match rng.below(4) {
        0 => 1,
        1 => n - 1,
        _ => rng.between(1, usize::from(n) - 1) as u8,
    };
    Group { n, f }
}

pub fn bad_group(rng: &mut Rng) -> Group {
    let good = group(rng, MAX_CONTROLLERS);
    let n = rng.pick(&[0, 1, 33, 34, 64, 255]);
    match rng.below(4) {
        0 => Group { n, f: good.f },
        1 => Group { n, f: n / 2 },
        2 => Group { n: good.n, f: 0 },
        _ => Group {
            n: good.n,
            f: rng.pick(&[good.n, good.n + 1, 255]),
        },
    }
}

pub fn id(rng: &mut Rng, group: Group) -> u8 {
    rng.between(1, group.n.into()) as u8
}

pub fn bad_id(rng: &mut Rng, group: Group) -> u8 {
    rng.pick(&[0, group.n + 1, MAX_CONTROLLERS + 1, 64, 255])
}

pub fn position(rng: &mut Rng) -> i32 {
    match rng.below(4) {
        0 => rng.pick(&[0, 1, -1, *POSITIONS.start(), *POSITIONS.end()]),
        _ => POSITIONS.start() + rng.between(0, 40_000) as i32,
    }
}

pub fn bad_position(rng: &mut Rng) -> i32 {
    let past = [
        POSITIONS.start() - 1,
        POSITIONS.end() + 1,
        i32::MIN,
        i32::MAX,
        0x0100_0000,
    ];
    rng.pick(&past)
}

pub fn order(rng: &mut Rng) -> u32 {
    match rng.below(4) {
        0 => rng.pick(&[1, 2, 0x7FFF_FFFF, 0x8000_0000, u32::MAX]),
        1 => rng.between(1, 300) as u32,
        _ => rng.word().max(1),
    }
}

pub fn kind(rng: &mut Rng) -> MessageKind {
    rng.pick(&MessageKind::ALL)
}

/// A number for a ballot: one of the controller's, one of another's, or one outside the range.
pub fn ballot_number(rng: &mut Rng, group: Group, id: u8) -> u32 {
    let outside = rng.pick(&[0, 256, 257, 65_536 + u32::from(id), 1 << 31, u32::MAX]);
    let turns = rng.below(3) as u32;
    match rng.below(6) {
        0 => outside,
        1 => rng.between(1, 255) as u32,
        _ => u32::from(id) + turns * u32::from(group.n),
    }
}

pub fn verdict(rng: &mut Rng) -> Verdict {
    rng.pick(&[Verdict::Stay, Verdict::Move])
}

pub fn outcome(rng: &mut Rng) -> Option<Verdict> {
    rng.pick(&[None, Some(Verdict::Stay), Some(Verdict::Move)])
}

/// A way between two controllers that question 10 permits or does not; any way where there is none such.
pub fn route(rng: &mut Rng, group: Group, kind: MessageKind, permitted: bool) -> (u8, u8) {
    let ways = group
        .ids()
        .flat_map(|from| group.ids().map(move |to| (from, to)));
    let (wanted, others): (Vec<_>, Vec<_>) = ways
        .filter(|(from, to)| from != to)
        .partition(|&(from, to)| group.permits(kind, from, to) == permitted);
    rng.pick(if wanted.is_empty() { &others } else { &wanted })
}

pub fn subset(rng: &mut Rng, of: Members) -> Members {
    Members(rng.word()).intersection(of)
}

/// Votes that suit the kind, as question 9 asks.
pub fn votes(rng: &mut Rng, group: Group, kind: MessageKind, from: u8) -> VoteSet {
    let sender = Members::only(from);
    let known = match kind {
        MessageKind::Vote => sender,
        MessageKind::Help => Members::NONE,
        MessageKind::Ack | MessageKind::Helped if rng.chance(1, 3) => group.everyone(),
        MessageKind::Ack | MessageKind::Helped => subset(rng, group.everyone()).union(sender),
    };
    let willing = if rng.chance(1, 2) {
        known
    } else {
        subset(rng, known)
    };
    VoteSet { known, willing }
}

/// Votes that do not suit the kind; bits above n are set up to bit `width` − 1.
pub fn bad_votes(
    rng: &mut Rng,
    group: Group,
    kind: MessageKind,
    from: u8,
    width: usize,
) -> VoteSet {
    let mut bad = votes(rng, group, kind, from);
    let sender = Members::only(from);
    let others = group.everyone().without(from);
    let other = {
        let ids: Vec<u8> = others.iter().collect();
        Members::only(rng.pick(&ids))
    };
    let n = usize::from(group.n);
    match rng.below(4) {
        // A bit above n, in known or in both.
        0 if n < width => {
            let above = Members(1 << rng.between(n, width - 1));
            bad.known = bad.known.union(above);
            if rng.chance(1, 2) {
                bad.willing = bad.willing.union(above);
            }
        }
        // A bit above n in willing alone.
        1 if n < width => {
            bad.willing = bad.willing.union(Members(1 << rng.between(n, width - 1)));
        }
        // Willing outside known.
        2 => {
            bad.known = bad.known.difference(other);
            bad.willing = bad.willing.union(other);
        }
        // Known as the kind does not have it.
        _ => {
            bad.known = match kind {
                MessageKind::Vote => {
                    rng.pick(&[Members::NONE, other, sender.union(other), group.everyone()])
                }
                MessageKind::Help => rng.pick(&[sender, other, group.everyone()]),
                MessageKind::Ack | MessageKind::Helped => {
                    let some = subset(rng, others);
                    rng.pick(&[Members::NONE, some, others])
                }
            };
            bad.willing = subset(rng, bad.known);
        }
    }
    bad
}
