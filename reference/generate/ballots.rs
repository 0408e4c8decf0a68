//! Schedules with ballots that compete (document 02, U14), at locks of both kinds.

mod courses;

use super::choices;
use super::orders::courses::{silent, split};
use super::orders::{aftermath, end, open};
use super::player::Player;
use crate::records::event::Event;
use crate::rng::Rng;
use courses::{duel, settle, wander};

/// A lock, mostly one with ballots, and orders until the schedule is full.
pub fn schedule(rng: &mut Rng) -> Vec<u8> {
    let limit = rng.between(40, 500);
    let mut player = Player::new(rng.fork(), limit).with_ballots();
    let most = player.rng.pick(&[3, 3, 4, 5, 7, 16, 32]);
    let group = choices::group(&mut player.rng, most);
    let ballots = player.rng.chance(7, 8);
    player.play(Event::Lock { group, ballots });
    if player.rng.chance(1, 4) {
        player.play_any();
    }
    while player.room() > 0 {
        play_order(&mut player);
    }
    player.into_bytes()
}

/// One order: words are put, ballots compete, the word is settled and given, as far as the schedule has room.
fn play_order(player: &mut Player) {
    open(player);
    if player.rng.chance(1, 6) {
        // Ballots while words are still missing.
        wander(player);
    }
    match player.rng.below(4) {
        0 => silent(player),
        _ => split(player),
    }
    match player.rng.below(4) {
        0 | 1 => duel(player),
        _ => wander(player),
    }
    if player.rng.chance(3, 4) {
        settle(player);
    }
    end(player);
    aftermath(player);
}
