//! How an order goes between its opening and its end.

use super::deliveries::{deliver_all, deliver_some, deliver_where, repeat, with_one};
use crate::generate::choices;
use crate::generate::player::Player;
use crate::members::Members;
use crate::records::message::MessageKind;

/// Everyone votes and every vote arrives before the first timeout, but for so many.
fn vote_all(player: &mut Player, lost: usize) {
    let group = player.group();
    let unwilling = match player.rng.below(4) {
        0 => choices::subset(&mut player.rng, group.everyone()),
        1 => Members::only(choices::id(&mut player.rng, group)),
        _ => Members::NONE,
    };
    for id in player.shuffled_ids() {
        player.vote(id, !unwilling.contains(id));
        if player.rng.chance(1, 3) {
            deliver_some(player, MessageKind::Vote);
        }
    }
    deliver_all(player, MessageKind::Vote, lost);
}

fn first_timeouts(player: &mut Player) {
    let group = player.group();
    for id in player.shuffled_ids() {
        if group.has_two_timeouts(id) {
            player.timeout(id);
        }
    }
}

/// An order with every message in time, but for so many votes and acknowledgements.
pub fn smooth(player: &mut Player, lost_votes: usize, lost_acks: usize) {
    vote_all(player, lost_votes);
    first_timeouts(player);
    // Too late for a vote.
    deliver_all(player, MessageKind::Vote, 0);
    deliver_all(player, MessageKind::Ack, lost_acks);
    for id in player.shuffled_ids() {
        player.timeout(id);
        if player.rng.chance(1, 20) {
            repeat(player);
        }
    }
}

/// Each controller has its acknowledgements before its own second timeout, though not before that of others.
pub fn staggered(player: &mut Player) {
    vote_all(player, 0);
    first_timeouts(player);
    for id in player.shuffled_ids() {
        deliver_where(player, MessageKind::Ack, |message| message.to == id);
        player.timeout(id);
    }
}

/// Some controllers hear no acknowledgement and have to call for help.
pub fn silent(player: &mut Player) {
    let group = player.group();
    let lost = player.rng.pick(&[0, 0, 1, 3, usize::MAX]);
    vote_all(player, lost);
    let mut deaf = choices::subset(&mut player.rng, group.everyone());
    if player.rng.chance(1, 2) {
        deaf = group.everyone();
    }
    let mut timeouts: Vec<u8> = group.ids().chain(group.ids()).collect();
    player.rng.shuffle(&mut timeouts);
    for id in timeouts {
        player.timeout(id);
        if player.rng.chance(1, 2) {
            let heard = choices::subset(&mut player.rng, group.everyone());
            deliver_where(player, MessageKind::Ack, |message| {
                heard.contains(message.from) && !deaf.contains(message.to)
            });
        }
        if player.rng.chance(1, 4) {
            deliver_some(player, MessageKind::Help);
        }
    }
    let rounds = player.rng.below(4);
    for _ in 0..rounds {
        let kind = player
            .rng
            .pick(&[MessageKind::Help, MessageKind::Helped, MessageKind::Ack]);
        deliver_some(player, kind);
        if player.rng.chance(1, 2) {
            repeat(player);
        }
    }
}

/// Some controllers hear everything from one another, the others nothing, so that both words may be put; then both are
/// given.
pub fn split(player: &mut Player) {
    let group = player.group();
    let informed = choices::subset(&mut player.rng, group.everyone()).union(Members::only(1));
    for id in player.shuffled_ids() {
        player.vote(id, true);
    }
    deliver_where(player, MessageKind::Vote, |message| {
        informed.contains(message.to)
    });
    first_timeouts(player);
    // Too late for a vote.
    if player.rng.chance(1, 2) {
        deliver_all(player, MessageKind::Vote, 0);
    }
    deliver_where(player, MessageKind::Ack, |message| {
        informed.contains(message.from) && informed.contains(message.to)
    });
    for id in player.shuffled_ids() {
        player.timeout(id);
    }
    deliver_all(player, MessageKind::Help, 0);
    deliver_all(player, MessageKind::Helped, 0);
    for id in player.shuffled_ids() {
        let verdict = choices::verdict(&mut player.rng);
        player.decide(id, verdict);
    }
}

/// Events as they come, by weights that differ from order to order.
pub fn wander(player: &mut Player) {
    const WEIGHTS: [[usize; 12]; 5] = [
        // vote, four kinds delivered, timeout, decision, save, stop, restore, repeat, any
        [10, 10, 10, 10, 10, 6, 3, 1, 1, 3, 2, 1],
        [10, 2, 1, 3, 3, 12, 2, 1, 1, 1, 1, 1],
        [10, 20, 20, 5, 5, 2, 1, 1, 0, 1, 1, 1],
        [10, 5, 0, 20, 20, 8, 1, 0, 0, 1, 1, 0],
        [5, 5, 5, 5, 5, 5, 5, 4, 4, 6, 4, 4],
    ];
    let weights = player.rng.pick(&WEIGHTS);
    let n = usize::from(player.group().n);
    let steps = player.rng.between(2 * n, 4 * n * n);
    let all_willing = player.rng.chance(1, 2);
    for _ in 0..steps {
        if player.room() == 0 {
            return;
        }
        match player.rng.weighted(&weights) {
            Some(0) => {
                let willing = all_willing || player.rng.chance(3, 4);
                let ids = player.ids_where(|c| c.phase() == Some(0));
                with_one(player, &ids, |player, id| player.vote(id, willing));
            }
            Some(kind @ 1..=4) => {
                let places = player.pending(MessageKind::ALL[kind - 1]);
                with_one(player, &places, Player::deliver);
            }
            Some(5) => {
                let ids = player.ids_where(|c| matches!(c.phase(), Some(1 | 2)));
                with_one(player, &ids, Player::timeout);
            }
            Some(6) => {
                if let Some(verdict) = player.verdict() {
                    let ids =
                        player.ids_where(|c| !c.is_stopped() && c.phase().is_none_or(|p| p == 3));
                    with_one(player, &ids, |player, id| player.decide(id, verdict));
                }
            }
            Some(7) => {
                let ids = player.ids_where(|c| !c.is_stopped());
                with_one(player, &ids, Player::save);
            }
            Some(8) => {
                let ids = player.ids_where(|c| !c.is_stopped());
                with_one(player, &ids, Player::stop);
            }
            Some(9) => {
                let ids = player.ids_where(|c| c.is_stopped());
                with_one(player, &ids, Player::restore);
            }
            Some(10) => repeat(player),
            _ => player.play_any(),
        }
    }
}
