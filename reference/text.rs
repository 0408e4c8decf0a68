//! What the programs print.

use crate::bench::lock::Lock;
use crate::bench::{run, Bench};
use crate::controller::{Answer, Controller, Reception};
use crate::records::checkpoint::{outcome_number, Checkpoint};
use crate::records::message::MessageKind;
use crate::vote_set::Verdict;
use std::fmt::Write;

/// "Above 40,960 bytes it prints just "- 1"."
pub const MAX_SCHEDULE: usize = 40_960;

/// The whole output of the bench program.
pub fn bench_report(schedule: &[u8]) -> String {
    if schedule.len() > MAX_SCHEDULE {
        return "- 1\n".to_string();
    }
    let (answers, bench) = run(schedule);
    let mut text = String::new();
    // "Per record it prints the index from 0 and the answer"
    for (index, answer) in answers.iter().enumerate() {
        let _ = writeln!(text, "{index} {answer}");
    }
    text + &bench_state(&bench)
}

/// The C lines and the T line.
pub fn bench_state(bench: &Bench) -> String {
    let mut text = String::new();
    // "With no lock there are no C lines"
    for controller in bench.lock().map_or(&[][..], Lock::controllers) {
        let _ = writeln!(text, "{}", controller_state(controller));
    }
    // "Then T and the telegrams sent in this order, by kind." "with no order T is all 0"
    let [votes, acks, helps, helpeds] = sent_by_kind(bench);
    let _ = writeln!(text, "T {votes} {acks} {helps} {helpeds}");
    text
}

/// "Then per controller: C, number, stage (8 stopped, 9 standing by), outcome (M, S, -), position."
pub fn controller_state(controller: &Controller) -> String {
    format!(
        "C {} {} {} {}",
        controller.id(),
        stage(controller),
        word(controller.outcome()),
        controller.position()
    )
}

pub fn sent_by_kind(bench: &Bench) -> [u64; 4] {
    let mut counts = [0; 4];
    for message in bench.lock().map_or(&[][..], Lock::sent) {
        counts[message.kind.index()] += 1;
    }
    counts
}

/// The line that the controller program prints after a call.
pub fn controller_line(
    controller: &Controller,
    answer: &Answer,
    saved: Option<Checkpoint>,
) -> String {
    let mut text = format!(
        "{} {} {} {} {}",
        match answer.reception {
            Reception::PassedOver => 0,
            Reception::Taken => 1,
            Reception::Contradicted => 24,
        },
        stage(controller),
        word(controller.outcome()),
        controller.position() as u32,
        word(answer.proposal)
    );
    for kind in MessageKind::ALL {
        let sending = answer.sent.iter().find(|sending| sending.kind == kind);
        let _ = match sending {
            None => write!(text, " -"),
            Some(s) => write!(
                text,
                " {}:{}:{}",
                s.receivers.0, s.votes.known.0, s.votes.willing.0
            ),
        };
    }
    if let Some(Checkpoint {
        outcome,
        order,
        position,
        ..
    }) = saved
    {
        let outcome = outcome_number(outcome);
        let _ = write!(text, " K {outcome} {order} {}", position as u32);
    }
    // The telegrams one by one, as they go out: kind by kind, "in rising order".
    for sending in &answer.sent {
        for to in sending.receivers.iter() {
            let _ = write!(text, " {}>{to}", sending.kind.number());
        }
    }
    if controller.has_ballots() {
        text + &ballots_text(controller, answer)
    } else {
        text
    }
}

/// Highest promise, ballot last taken and its word, then what the call sent of ballots, one by one as it goes out.
fn ballots_text(controller: &Controller, answer: &Answer) -> String {
    let ballots = controller.ballots();
    let promise = ballots.map_or(0, |ballots| ballots.highest_promise());
    let taken = ballots.and_then(|ballots| ballots.last_taken());
    let last = taken.map_or(0, |taking| taking.ballot);
    let word = outcome_number(taken.map(|taking| taking.word));
    let mut text = format!(" B {promise} {last} {word}");
    for sending in &answer.ballots_sent {
        let (kind, ballot, last) = (sending.kind.number(), sending.ballot, sending.last);
        let word = outcome_number(sending.word);
        for to in sending.receivers.iter() {
            let _ = write!(text, " {kind}:{ballot}:{last}:{word}>{to}");
        }
    }
    text
}

fn stage(controller: &Controller) -> u8 {
    match controller.phase() {
        Some(phase) => phase,
        None if controller.is_stopped() => 8,
        None => 9,
    }
}

fn word(verdict: Option<Verdict>) -> char {
    match verdict {
        None => '-',
        Some(Verdict::Stay) => 'S',
        Some(Verdict::Move) => 'M',
    }
}
