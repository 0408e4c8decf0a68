//! Telegrams that never come: a dashed line below the row of their sending, with an end mark before each receiver.

use crate::layout::{Layout, ROW};
use crate::legend::{Entry, Used};
use crate::run::{Run, Telegram};
use crate::svg::{num, Style, Svg, GREY, PALE, PLAIN, RIM};
use crate::telegrams::{beside, Point, SMALL};
use crate::words::Kind;

pub fn draw(run: &Run, layout: &Layout, lines: &mut Svg, labels: &mut Svg, used: &mut Used) {
    for row in &layout.rows {
        let Some(y) = layout.y(*row) else { continue };
        let lost: Vec<&Telegram> = run.sent_at(*row).filter(|telegram| is_lost(run, telegram)).collect();
        let mut kinds: Vec<Kind> = lost.iter().map(|telegram| telegram.route.kind).collect();
        kinds.dedup();
        for telegram in &lost {
            line(run, layout, telegram, y + depth(&kinds, telegram), y, lines);
            used.note(Entry::Lost);
            used.telegram(telegram.route.kind);
        }
        for right in [false, true] {
            label(run, layout, &lost, right, *row, labels);
        }
    }
}

/// One that came and whose coming was undone is lost too, unless its sending was undone as well.
fn is_lost(run: &Run, telegram: &Telegram) -> bool {
    run.comes(telegram).next().is_none() && (!run.is_undone(telegram.sent) || telegram.comes.is_empty())
}

/// Each kind has a line of its own between the rows.
fn depth(kinds: &[Kind], telegram: &Telegram) -> f64 {
    let place = kinds.iter().position(|kind| *kind == telegram.route.kind).unwrap_or(0) as f64;
    ROW / 2.0 + 6.0 * (place - (kinds.len() as f64 - 1.0) / 2.0)
}

fn is_right(telegram: &Telegram) -> bool {
    telegram.route.to > telegram.route.from
}

fn line(run: &Run, layout: &Layout, telegram: &Telegram, y: f64, top: f64, lines: &mut Svg) {
    let route = &telegram.route;
    let undone = run.is_undone(telegram.sent);
    let colour = if undone { PALE } else { route.kind.colour() };
    let side = if is_right(telegram) { 1.0 } else { -1.0 };
    let x = layout.x(route.from);
    let title = format!("{}: sent at {}, never comes", route.title(), run.index(telegram.sent));
    lines.open(if undone { "lost undone" } else { "lost" }, &title);
    dashed(lines, (x, top), (x + 14.0 * side, y), (layout.x(route.to) - 7.0 * side, y), colour);
    lines.close();
}

pub fn dashed(svg: &mut Svg, from: Point, bend: Point, end: Point, colour: &str) {
    let [a, b, c, d, e, f] = [from.0, from.1, bend.0, bend.1, end.0, end.1].map(num);
    let rest = format!(" stroke=\"{colour}\" stroke-width=\"1\" stroke-dasharray=\"5 3\"");
    svg.path(&format!("M{a},{b} L{c},{d} L{e},{f}"), "none", &rest);
    let [left, right, up, down] = [end.0 - 3.2, end.0 + 3.2, end.1 - 3.2, end.1 + 3.2].map(num);
    let cross = format!("M{left},{up} L{right},{down} M{left},{down} L{right},{up}");
    svg.path(&cross, "none", &format!(" stroke=\"{colour}\" stroke-width=\"1.8\""));
}

/// On each side the outermost of each kind says what it is; two of one receiver are one label.
fn label(run: &Run, layout: &Layout, lost: &[&Telegram], right: bool, row: usize, labels: &mut Svg) {
    let Some(y) = layout.y(row) else { return };
    let side: Vec<&&Telegram> = lost.iter().filter(|telegram| is_right(telegram) == right).collect();
    let is_beyond = |one: u8, other: u8| if right { one > other } else { one < other };
    let same_line = |one: &Telegram, other: &Telegram| {
        one.route.kind == other.route.kind && one.route.ballot == other.route.ballot
    };
    let outermost: Vec<&&&Telegram> = side
        .iter()
        .filter(|telegram| {
            !side
                .iter()
                .any(|other| same_line(other, telegram) && is_beyond(other.route.to, telegram.route.to))
        })
        .collect();
    let mut receivers: Vec<u8> = outermost.iter().map(|telegram| telegram.route.to).collect();
    receivers.sort_unstable();
    receivers.dedup();
    for receiver in receivers {
        let here: Vec<&&&&Telegram> =
            outermost.iter().filter(|telegram| telegram.route.to == receiver).collect();
        let words: Vec<String> = here.iter().map(|telegram| telegram.route.label(layout.is_wide())).collect();
        let colour = if run.is_undone(row) { GREY } else { here[0].route.kind.colour() };
        let style = Style { size: SMALL, colour, class: RIM, ..PLAIN };
        beside(labels, (layout.x(receiver), y + ROW / 2.0), right, 3.0, &words.join(" "), style);
    }
}
