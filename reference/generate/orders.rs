//! Ways in which an order may go on the bench.

pub(super) mod courses;
pub(super) mod deliveries;

use super::choices;
use super::player::Player;
use crate::records::event::Event;
use crate::records::message::MessageKind;
use courses::{silent, smooth, split, staggered, wander};
use deliveries::{deliver_some, repeat};

/// One order from its opening to its end, as far as the schedule has room.
pub fn play_order(player: &mut Player) {
    open(player);
    match player.rng.below(20) {
        0..=5 => smooth(player, 0, 0),
        6 | 7 => smooth(player, 1, 0),
        8 | 9 => smooth(player, 0, 1),
        10 => staggered(player),
        11 | 12 => split(player),
        13 | 14 => silent(player),
        _ => wander(player),
    }
    if player.rng.chance(9, 10) {
        end(player);
        aftermath(player);
    }
}

pub(super) fn open(player: &mut Player) {
    let last = player.lock().last_order();
    let step = match player.rng.below(60) {
        // The highest number leaves no order to follow.
        0 if player.room() < 100 => u32::MAX - last,
        1..=3 => (u32::MAX - last) / 16,
        _ => player.rng.between(1, 3) as u32,
    };
    let number = last.saturating_add(step).max(1);
    player.play(Event::Order { number });
    if player.rng.chance(1, 3) {
        for id in player.shuffled_ids() {
            if player.rng.chance(1, 2) {
                player.save(id);
            }
        }
    }
}

/// Brings every running controller to an outcome, or stops it.
pub(super) fn end(player: &mut Player) {
    for phase in 0..3 {
        for id in player.ids_where(|c| c.phase() == Some(phase)) {
            if phase == 0 {
                player.vote(id, true);
            } else {
                player.timeout(id);
            }
        }
    }
    // Calls that came early are answered by now; the others are delivered first.
    if player.verdict().is_none() {
        for kind in [MessageKind::Help, MessageKind::Helped] {
            for place in player.places(|message| message.kind == kind) {
                player.deliver(place);
            }
        }
    }
    let verdict = player.verdict();
    for id in player.ids_where(|c| c.is_running() && c.outcome().is_none()) {
        match verdict {
            Some(verdict) if player.rng.chance(30, 31) => player.decide(id, verdict),
            _ => player.stop(id),
        }
    }
}

/// Late messages, stops and restores once the outcomes are there.
pub(super) fn aftermath(player: &mut Player) {
    let group = player.group();
    let events = player.rng.pick(&[0, 0, 2, 6]);
    for _ in 0..events {
        let id = choices::id(&mut player.rng, group);
        match player.rng.below(6) {
            0 => repeat(player),
            1 => deliver_some(player, MessageKind::Ack),
            2 => player.save(id),
            3 => player.stop(id),
            4 => {
                if let Some(verdict) = player.verdict() {
                    player.decide(id, verdict);
                }
            }
            _ => {
                if player.rng.chance(1, 2) {
                    player.save(id);
                }
                player.stop(id);
                player.restore(id);
            }
        }
    }
    for id in player.ids_where(|c| c.is_stopped()) {
        if player.lock().checkpoint(id).is_some() && player.rng.chance(19, 20) {
            player.restore(id);
            let verdict = player.verdict();
            if let Some(verdict) = verdict.filter(|_| player.rng.chance(1, 3)) {
                player.decide(id, verdict);
            }
        }
    }
}
