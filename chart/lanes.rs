//! A line for each controller, by what its C line shows; its number above, and below where it stands at the end.

use crate::layout::{Layout, ROW};
use crate::legend::{Entry, Used};
use crate::marks::{draw as draw_mark, outcome, Mark};
use crate::run::Run;
use crate::svg::{Anchor, Style, Svg, GREY, INK, MOVE, PLAIN, RIM, STAY};
use crate::trace::{State, STANDING_BY, STOPPED};
use crate::words::{Event, Word};

/// The height of what stands below the lines.
pub const FEET: f64 = 46.0;

pub fn draw(run: &Run, layout: &Layout, svg: &mut Svg, used: &mut Used) {
    let rows: Vec<usize> = layout.rows.iter().copied().filter(|row| *row >= run.lock_row).collect();
    for id in 1..=run.n() {
        lane(run, layout, svg, &rows, id as u8, used);
    }
}

fn lane(run: &Run, layout: &Layout, svg: &mut Svg, rows: &[usize], id: u8, used: &mut Used) {
    let Some(&begin) = rows.first() else { return };
    let x = layout.x(id);
    let mut state = run.after(begin, usize::from(id));
    let mut top = layout.y(begin).unwrap_or(0.0);
    for &row in rows {
        let next = run.after(row, usize::from(id));
        let y = layout.y(row).unwrap_or(top);
        if look(&next) != look(&state) {
            segment(svg, x, (top, y), &state, used);
            top = y;
        }
        state = next;
    }
    segment(svg, x, (top, layout.bottom), &state, used);
    head(svg, x, layout.heads_y(), id);
    foot(svg, (x, layout.bottom + 12.0), &state);
}

/// What a line shows of a C line.
fn look(state: &State) -> (bool, bool, Option<Word>) {
    (state.stage == STOPPED, state.stage == STANDING_BY, state.outcome)
}

fn segment(svg: &mut Svg, x: f64, (top, bottom): (f64, f64), state: &State, used: &mut Used) {
    if bottom <= top {
        return;
    }
    let entry = match (state.stage, state.outcome) {
        (STOPPED, _) => Entry::LineStopped,
        (STANDING_BY, _) => Entry::LineStandingBy,
        (_, Some(_)) => Entry::LineOutcome,
        _ => Entry::LineRunning,
    };
    used.note(entry);
    stroke(svg, (x, top), (x, bottom), state);
}

pub fn stroke(svg: &mut Svg, from: (f64, f64), to: (f64, f64), state: &State) {
    let colour = match state.outcome {
        None => "#5a5a5a",
        Some(Word::Move) => MOVE,
        Some(Word::Stay) => STAY,
    };
    let width = if state.outcome.is_some() { "2.6" } else { "1.2" };
    let dashes = match state.stage {
        STOPPED => " stroke-dasharray=\"2 5\"",
        STANDING_BY => " stroke-dasharray=\"8 5\"",
        _ => "",
    };
    svg.line(from, to, colour, &format!(" stroke-width=\"{width}\"{dashes}"));
}

fn head(svg: &mut Svg, x: f64, y: f64, id: u8) {
    svg.rect((x - 14.0, y - 13.0), (28.0, 20.0), "#fff", &format!(" stroke=\"{INK}\" rx=\"4\""));
    let style = Style { size: 13.0, bold: true, anchor: Anchor::Middle, class: "head", ..PLAIN };
    svg.text(x, y + 1.6, &id.to_string(), style);
}

/// Outcome and position at the end.
fn foot(svg: &mut Svg, (x, y): (f64, f64), state: &State) {
    match (state.outcome, state.stage) {
        (Some(word), _) => outcome(svg, (x, y), word, false),
        (None, STOPPED) => draw_mark(svg, (x, y), Mark::Stop, false),
        (None, _) => {
            svg.text(x, y + 4.0, "-", Style { size: 13.0, bold: true, anchor: Anchor::Middle, ..PLAIN })
        }
    }
    let style = Style { size: 10.0, anchor: Anchor::Middle, ..PLAIN };
    svg.text(x, y + 22.0, &state.position.to_string(), style);
}

/// The controllers' numbers once more, between the rows.
pub fn rulers(run: &Run, layout: &Layout, svg: &mut Svg) {
    let style = Style { size: 10.0, colour: GREY, anchor: Anchor::Middle, class: RIM, ..PLAIN };
    for y in &layout.rulers {
        for id in 1..=run.n() {
            svg.text(layout.x(id as u8), y + 3.6, &id.to_string(), style);
        }
    }
}

/// Every second row has a ground of its own.
pub fn grounds(run: &Run, layout: &Layout, svg: &mut Svg) {
    for (count, row) in layout.rows.iter().enumerate() {
        let Some(y) = layout.y(*row) else { continue };
        let opens = run.entries[*row].is_accepted()
            && !run.is_undone(*row)
            && matches!(run.entries[*row].event, Some(Event::Order(_)));
        let fill = match (opens, count % 2) {
            (true, _) => "#dfe7f5",
            (_, 1) => "#f5f6f8",
            _ => continue,
        };
        svg.rect((0.0, y - ROW / 2.0), (layout.width, ROW), fill, "");
    }
}
