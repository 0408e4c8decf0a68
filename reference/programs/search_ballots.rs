//! Every state of the ballots of one order (document 02, U14), with lost, late and repeated messages and with stops, for few
//! controllers and ballots; fails where two words are chosen, or where a search meets nothing of what it should.

use reference::search::model::Site;
use reference::search::{search, Found};
use reference::vote_set::Verdict::{self, Move, Stay};
use std::process::ExitCode;

fn main() -> ExitCode {
    let mut sites = Vec::new();
    for one in [Stay, Move] {
        for two in [Stay, Move] {
            for three in [Stay, Move] {
                sites.push(site(&[one, two, three], &[1, 2, 4], true));
            }
        }
    }
    sites.extend([
        site(&[Move, Stay], &[1, 2, 3, 4], true),
        site(&[Move, Stay, Stay], &[1, 2, 3], true),
        site(&[Stay, Move, Stay], &[2, 3, 4], true),
        site(&[Move, Stay, Stay, Move], &[1, 2], true),
        // A stop only takes steps away.
        site(&[Move, Stay, Stay], &[1, 2, 3, 4], false),
        site(&[Move, Stay, Stay, Move], &[1, 2, 3], false),
    ]);
    let (mut states, mut is_right) = (0, true);
    for site in &sites {
        let found = search(site);
        states += found.states;
        print_found(site, &found);
        is_right &= found.violation.is_none() && is_met(site, &found);
    }
    println!("{states} states in all");
    if is_right {
        ExitCode::SUCCESS
    } else {
        ExitCode::FAILURE
    }
}

fn site(words: &[Verdict], ballots: &[u8], stops: bool) -> Site {
    Site {
        words: words.to_vec(),
        ballots: ballots.to_vec(),
        stops,
        fault: None,
    }
}

fn print_found(site: &Site, found: &Found) {
    let words: Vec<String> = site.words.iter().map(|word| format!("{word:?}")).collect();
    let with = if site.stops { "stops" } else { "no stops" };
    println!(
        "n = {}, words put {}, ballots {:?}, {with}: {} states, {} steps",
        site.n(),
        words.join(", "),
        site.ballots,
        found.states,
        found.steps,
    );
    let [stay, moved] = found.chosen;
    let contested = found.contested;
    println!("    Stay chosen in {stay}, Move in {moved}, takers of both words in {contested}");
    if let Some(way) = &found.violation {
        println!("    two words are chosen after {way:?}");
    }
}

/// Whether each word that an owner has put is chosen somewhere and no other, and there are takers of both where there can be: at
/// n = 2 a majority is everyone.
fn is_met(site: &Site, found: &Found) -> bool {
    let owners = (0..site.ballots.len()).map(|place| site.owner(place));
    let words: Vec<Verdict> = owners.map(|owner| site.words[owner]).collect();
    let both = words.contains(&Stay) && words.contains(&Move) && site.n() > 2;
    let chosen = [Stay, Move].iter().zip(found.chosen);
    let mut as_put = chosen.map(|(word, count)| words.contains(word) == (count > 0));
    as_put.all(|is_so| is_so) && (found.contested > 0) == both
}
