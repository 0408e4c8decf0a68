//! How ballots go within an order.

use crate::ballot::BallotKind;
use crate::generate::choices;
use crate::generate::orders::deliveries::with_one;
use crate::generate::player::Player;
use crate::members::Members;
use crate::records::ballot_message::BallotMessage;

/// A ballot that the controller may open, mostly one of the first; none where there is none.
fn next_ballot(player: &mut Player, id: u8) -> Option<u8> {
    let controller = player.lock().controller(id);
    let may_open = |ballot: &u8| controller.ballots().is_some_and(|own| own.may_open(*ballot));
    let own: Vec<u8> = (1..=255).filter(may_open).collect();
    if own.is_empty() {
        return None;
    }
    let among = match player.rng.below(12) {
        0 => own.len(),
        1..=3 => own.len().min(3),
        _ => 1,
    };
    Some(player.rng.pick(&own[..among]))
}

/// Opens a ballot of the controller that is above all promises, if there is one.
fn open_above(player: &mut Player, id: u8) -> Option<u8> {
    let controllers = player.lock().controllers().iter();
    let promises = controllers.filter_map(|c| c.ballots().map(|own| own.highest_promise()));
    let highest = promises.max().unwrap_or(0);
    let controller = player.lock().controller(id);
    let own = controller.ballots()?;
    let ballot = (highest..=255).find(|&ballot| ballot > highest && own.may_open(ballot))?;
    player.open_ballot(id, ballot);
    Some(ballot)
}

/// The running controllers that have put a word.
fn proposers(player: &Player) -> Vec<u8> {
    player.ids_where(|c| c.proposed().is_some())
}

fn deliver_where(player: &mut Player, fits: impl Fn(&BallotMessage) -> bool) {
    for place in player.ballot_places(fits) {
        player.deliver_ballot(place);
    }
}

/// Brings the asks of a ballot to some, and their promises back.
fn gather(player: &mut Player, ballot: u8, some: Members) {
    for (kind, to_owner) in [(BallotKind::Ask, false), (BallotKind::Promise, true)] {
        deliver_where(player, |message| {
            let other = if to_owner { message.from } else { message.to };
            message.ballot == ballot && message.kind == kind && some.contains(other)
        });
    }
}

fn bring_put(player: &mut Player, ballot: u8, some: Members) {
    deliver_where(player, |message| {
        message.ballot == ballot && message.kind == BallotKind::Put && some.contains(message.to)
    });
}

/// So many of the running controllers that are in the set.
fn some_of(player: &mut Player, of: Members, count: usize) -> Members {
    let mut ids: Vec<u8> = player.ids_where(|c| c.is_running() && of.contains(c.id()));
    player.rng.shuffle(&mut ids);
    let chosen = ids.iter().take(count);
    chosen.fold(Members::NONE, |set, &id| set.union(Members::only(id)))
}

/// Two owners after each other: the first comes to put its word and brings it to few, and is perhaps stopped; the second asks
/// those that took it, or those that did not.
pub fn duel(player: &mut Player) {
    let everyone = player.group().everyone();
    let half = usize::from(player.group().n) / 2;
    let owners = proposers(player);
    let [Some(first), Some(second)] = rivals(player, &owners) else {
        return wander(player);
    };
    let Some(ballot) = open_above(player, first) else {
        return;
    };
    let asked = some_of(player, everyone.without(first), half);
    gather(player, ballot, asked);
    let reached = player.rng.below(half.max(1));
    let takers = some_of(player, everyone.without(first).without(second), reached);
    bring_put(player, ballot, takers);
    if player.rng.chance(1, 3) {
        player.stop(first);
    }
    let Some(higher) = open_above(player, second) else {
        return;
    };
    // Those that know nothing of the first put, as far as they suffice; or anybody.
    let unaware = everyone.difference(takers).without(first).without(second);
    let mut asked = some_of(player, unaware, half);
    if player.rng.chance(1, 2) {
        asked = some_of(player, everyone.without(second), half);
    }
    gather(player, higher, asked);
    let reached = player.rng.between(0, 2 * half);
    let takers = some_of(player, everyone.without(second), reached);
    bring_put(player, higher, takers);
    // What comes late or again.
    deliver_where(player, |message| message.ballot == ballot);
    if player.rng.chance(1, 2) {
        deliver_where(player, |message| message.ballot == higher);
    }
}

/// Two controllers that have put a word, of different words if there are such.
fn rivals(player: &mut Player, owners: &[u8]) -> [Option<u8>; 2] {
    let mut owners = owners.to_vec();
    player.rng.shuffle(&mut owners);
    let first = owners.first().copied();
    let word_of = |id: u8| player.lock().controller(id).proposed();
    let differs = |id: &&u8| first.is_some_and(|first| word_of(**id) != word_of(first));
    let second = owners.iter().find(differs).or(owners.get(1)).copied();
    [first, second]
}

/// One ballot above all promises, brought to everyone.
pub fn settle(player: &mut Player) {
    let owners = proposers(player);
    with_one(player, &owners, |player, id| {
        if let Some(ballot) = open_above(player, id) {
            let everyone = player.group().everyone();
            gather(player, ballot, everyone);
            bring_put(player, ballot, everyone);
        }
    });
}

/// Events of ballots as they come, by weights that differ from order to order.
pub fn wander(player: &mut Player) {
    const WEIGHTS: [[usize; 11]; 4] = [
        // open, four kinds delivered, again, decision, stop, restore, timeout, any
        [8, 12, 12, 10, 3, 4, 3, 1, 1, 1, 2],
        [4, 20, 20, 20, 1, 2, 1, 0, 0, 0, 0],
        [12, 8, 8, 4, 1, 6, 2, 2, 1, 1, 4],
        [6, 10, 10, 5, 2, 2, 6, 2, 2, 2, 8],
    ];
    let weights = player.rng.pick(&WEIGHTS);
    let n = usize::from(player.group().n);
    let steps = player.rng.between(4, 12 * n);
    for _ in 0..steps {
        if player.room() == 0 {
            return;
        }
        match player.rng.weighted(&weights) {
            Some(0) => open_any(player),
            Some(kind @ 1..=4) => {
                let places = player.pending_ballots(BallotKind::ALL[kind - 1]);
                with_one(player, &places, Player::deliver_ballot);
            }
            Some(5) => {
                let places = player.ballot_places(|_| true);
                with_one(player, &places, Player::deliver_ballot);
            }
            Some(6) => decide(player),
            Some(7) => {
                let ids = player.ids_where(|c| c.is_running());
                with_one(player, &ids, Player::stop);
            }
            Some(8) => {
                let ids = player.ids_where(|c| c.is_stopped());
                with_one(player, &ids, Player::restore);
            }
            Some(9) => {
                let ids = player.ids_where(|c| matches!(c.phase(), Some(1 | 2)));
                with_one(player, &ids, Player::timeout);
            }
            _ => player.play_any(),
        }
    }
}

/// Mostly a ballot that may be opened; else one of the running controllers' that may not.
fn open_any(player: &mut Player) {
    let running = player.ids_where(|c| c.is_running());
    let owners = proposers(player);
    let group = player.group();
    if owners.is_empty() || player.rng.chance(1, 8) {
        return with_one(player, &running, |player, id| {
            let ballot = choices::ballot_number(&mut player.rng, group, id);
            player.open_ballot(id, ballot as u8);
        });
    }
    with_one(player, &owners, |player, id| {
        if let Some(ballot) = next_ballot(player, id) {
            player.open_ballot(id, ballot);
        }
    });
}

/// A word that may be given, or any.
fn decide(player: &mut Player) {
    let verdict = match player.verdict() {
        Some(verdict) if player.rng.chance(3, 4) => verdict,
        _ => choices::verdict(&mut player.rng),
    };
    let ids = player.ids_where(|c| !c.is_stopped() && c.phase().is_none_or(|phase| phase == 3));
    with_one(player, &ids, |player, id| player.decide(id, verdict));
}
