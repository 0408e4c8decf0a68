//! Schedules for the bench program.

use super::choices;
use super::orders::play_order;
use super::player::Player;
use crate::group::MAX_CONTROLLERS;
use crate::records::event::Event;
use crate::rng::Rng;
use crate::text::MAX_SCHEDULE;
use std::io;

/// The most events of a schedule.
pub(super) const MAX_EVENTS: usize = MAX_SCHEDULE / Event::LENGTH;

/// The schedules of a file, each after its length in four bytes.
pub fn split(file: &[u8]) -> io::Result<Vec<&[u8]>> {
    let mut schedules = Vec::new();
    let mut rest = file;
    while !rest.is_empty() {
        let cut = || io::Error::other("the file ends within a schedule");
        let (length, after) = rest.split_first_chunk::<4>().ok_or_else(cut)?;
        let length = u32::from_be_bytes(*length) as usize;
        let (schedule, after) = after.split_at_checked(length).ok_or_else(cut)?;
        schedules.push(schedule);
        rest = after;
    }
    Ok(schedules)
}

/// The schedule with that place in a set: each special form is among the first, and now and then later.
pub fn schedule(rng: &mut Rng, place: usize) -> Vec<u8> {
    let form = if place < 8 { place } else { rng.below(200) };
    match form {
        0 => Vec::new(),
        1 => without_lock(rng),
        2 => noise(rng),
        3 => filled(rng, MAX_SCHEDULE),
        4 => filled(rng, MAX_SCHEDULE + 1),
        5 => {
            let length = MAX_SCHEDULE + rng.between(2, 5_000);
            filled(rng, length)
        }
        6 => shifted(rng),
        7..=20 => with_short_end(rng),
        _ => played_of_any_length(rng),
    }
}

fn played_of_any_length(rng: &mut Rng) -> Vec<u8> {
    match rng.below(10) {
        0..=3 => {
            let limit = rng.between(5, 80);
            played(rng, limit, 5)
        }
        4..=8 => {
            let limit = rng.between(80, 900);
            played(rng, limit, MAX_CONTROLLERS)
        }
        _ => {
            let limit = rng.between(900, MAX_EVENTS);
            played(rng, limit, MAX_CONTROLLERS)
        }
    }
}

/// A lock of up to `most` controllers and orders until the schedule is full, with some events before each.
pub(super) fn played(rng: &mut Rng, limit: usize, most: u8) -> Vec<u8> {
    let mut player = Player::new(rng.fork(), limit);
    play_strays(&mut player);
    let group = choices::group(&mut player.rng, most);
    player.play(Event::Lock {
        group,
        ballots: false,
    });
    play_strays(&mut player);
    while player.room() > 0 {
        play_order(&mut player);
    }
    player.into_bytes()
}

fn play_strays(player: &mut Player) {
    if player.rng.chance(1, 3) {
        let count = player.rng.between(1, 6);
        for _ in 0..count {
            player.play_any();
        }
    }
}

fn without_lock(rng: &mut Rng) -> Vec<u8> {
    let limit = rng.between(1, 30);
    let bytes = played(rng, limit, MAX_CONTROLLERS);
    let is_lock = |record: &[u8]| matches!(Event::read(record), Ok(Event::Lock { .. }));
    let others = bytes
        .chunks(Event::LENGTH)
        .filter(|record| !is_lock(record));
    others.flatten().copied().collect()
}

/// Bytes of any value.
fn noise(rng: &mut Rng) -> Vec<u8> {
    let length = rng.between(1, 300);
    (0..length).map(|_| rng.byte()).collect()
}

/// A schedule of just that length.
fn filled(rng: &mut Rng, length: usize) -> Vec<u8> {
    let mut bytes = played(rng, length / Event::LENGTH, MAX_CONTROLLERS);
    bytes.resize(length, 0x4C);
    bytes
}

/// A byte lost or won, so that the records after it are no longer where they should be.
fn shifted(rng: &mut Rng) -> Vec<u8> {
    let mut bytes = played(rng, 60, 4);
    let at = rng.below(bytes.len());
    if rng.chance(1, 2) {
        bytes.remove(at);
    } else {
        bytes.insert(at, 0);
    }
    bytes
}

fn with_short_end(rng: &mut Rng) -> Vec<u8> {
    let limit = rng.between(5, 200);
    let mut bytes = played(rng, limit, MAX_CONTROLLERS);
    let cut = rng.between(1, Event::LENGTH - 1);
    bytes.truncate(bytes.len() - cut);
    bytes
}
