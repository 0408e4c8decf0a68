//! Deliveries of what was sent.

use crate::generate::player::Player;
use crate::records::message::{Message, MessageKind};

/// Delivers what is pending of a kind but for the last few.
pub fn deliver_all(player: &mut Player, kind: MessageKind, lost: usize) {
    let places = player.pending(kind);
    let count = places.len().saturating_sub(lost);
    for &place in &places[..count] {
        player.deliver(place);
    }
}

/// Delivers about half of what is pending of a kind.
pub fn deliver_some(player: &mut Player, kind: MessageKind) {
    let places = player.pending(kind);
    for &place in &places[..places.len().div_ceil(2)] {
        player.deliver(place);
    }
}

/// Delivers those that are pending of a kind and fit.
pub fn deliver_where(player: &mut Player, kind: MessageKind, fits: impl Fn(&Message) -> bool) {
    for place in player.pending(kind) {
        if fits(&player.lock().sent()[place]) {
            player.deliver(place);
        }
    }
}

/// Delivers once more one of the messages sent.
pub fn repeat(player: &mut Player) {
    let places = player.places(|_| true);
    with_one(player, &places, Player::deliver);
}

pub fn with_one<T: Copy>(player: &mut Player, choices: &[T], act: impl FnOnce(&mut Player, T)) {
    if !choices.is_empty() {
        let choice = player.rng.pick(choices);
        act(player, choice);
    }
}
