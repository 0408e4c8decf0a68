//! Schedules that bring an order, with up to f controllers stopped, to where every running gate must have heard (document 02, U5).

use super::choices;
use super::player::Player;
use crate::controller::Controller;
use crate::group::MAX_CONTROLLERS;
use crate::records::event::Event;
use crate::records::message::MessageKind;
use crate::rng::Rng;
use crate::text::MAX_SCHEDULE;

/// A lock and one order of it: acts in any sequence with stops among them, then acts until none is left.
pub fn schedule(rng: &mut Rng) -> Vec<u8> {
    let mut player = Player::new(rng.fork(), MAX_SCHEDULE / Event::LENGTH);
    let most = player.rng.pick(&[3, 5, MAX_CONTROLLERS]);
    let group = choices::group(&mut player.rng, most);
    player.play(Event::Lock {
        group,
        ballots: false,
    });
    player.play(Event::Order { number: 1 });
    let stops = match player.rng.below(3) {
        0 => player.rng.between(0, group.f.into()),
        _ => group.f.into(),
    };
    let acts = player.rng.between(0, 6 * usize::from(group.n));
    for _ in 0..acts {
        if player.rng.chance(1, 8) {
            stop_or_restore(&mut player, stops);
        } else {
            act(&mut player);
        }
    }
    while act(&mut player) {}
    player.into_bytes()
}

/// Stops a running controller while fewer than so many are down, or brings one back to standing by.
fn stop_or_restore(player: &mut Player, stops: usize) {
    let stopped = player.ids_where(Controller::is_stopped);
    let running = player.ids_where(Controller::is_running);
    if !stopped.is_empty() && player.rng.chance(1, 3) {
        let id = player.rng.pick(&stopped);
        player.restore(id);
    } else if usize::from(player.group().n) - running.len() < stops {
        let id = player.rng.pick(&running);
        player.stop(id);
    }
}

/// One thing that is still to be done for the premises, if there is any: a vote, a bell, a delivery, the arbiter's answer.
fn act(player: &mut Player) -> bool {
    let voters = player.ids_where(|c| c.phase() == Some(0));
    let untimed = player.ids_where(|c| matches!(c.phase(), Some(1 | 2)));
    let kind = choices::kind(&mut player.rng);
    let pending = [
        kind,
        MessageKind::Vote,
        MessageKind::Ack,
        MessageKind::Help,
        MessageKind::Helped,
    ]
    .into_iter()
    .map(|kind| player.pending(kind))
    .find(|places| !places.is_empty())
    .unwrap_or_default();
    // At stage 3 one has an outcome, has put a word, or waits.
    let asking =
        player.ids_where(|c| c.phase() == Some(3) && c.outcome().is_none() && !c.is_waiting());
    let weights = [&voters, &untimed, &asking].map(|ids| ids.len().min(1));
    let weights = [
        2 * weights[0],
        2 * weights[1],
        weights[2],
        4 * pending.len().min(1),
    ];
    match player.rng.weighted(&weights) {
        Some(0) => {
            let id = player.rng.pick(&voters);
            let willing = player.rng.chance(9, 10);
            player.vote(id, willing);
        }
        Some(1) => {
            let id = player.rng.pick(&untimed);
            player.timeout(id);
        }
        Some(2) => {
            let id = player.rng.pick(&asking);
            let verdict = player.verdict().expect("a word was put");
            player.decide(id, verdict);
        }
        Some(_) => {
            let place = player.rng.pick(&pending);
            player.deliver(place);
        }
        None => return false,
    }
    true
}
