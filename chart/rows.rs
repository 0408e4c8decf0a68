//! The rows: an event's index and words, its marks, what came of it.

use crate::layout::{shown, Layout, LABEL, ROW};
use crate::legend::{Entry as Key, Used};
use crate::marks::{draw as draw_mark, Mark};
use crate::notes::note;
use crate::run::Run;
use crate::svg::{num, Anchor, Style, Svg, GREY, PLAIN, RIM};
use crate::telegrams::{head, SMALL};
use crate::words::Event;

/// So many rows above itself a step back points.
const FARTHEST: f64 = 9.0;
/// Between two marks of one row.
const STEP: f64 = 19.0;

pub fn draw(run: &Run, layout: &Layout, svg: &mut Svg, used: &mut Used) {
    for row in &layout.rows {
        let Some(y) = layout.y(*row) else { continue };
        words(run, layout, svg, *row, y);
        marks(run, layout, svg, *row, y, used);
        if let Some(back) = run.undone_by[*row] {
            undone(layout, svg, y, back);
            used.note(Key::Undone);
        }
    }
}

fn words(run: &Run, layout: &Layout, svg: &mut Svg, row: usize, y: f64) {
    let entry = &run.entries[row];
    let is_grey = run.is_undone(row) || !entry.is_accepted();
    let opens = matches!(entry.event, Some(Event::Order(_) | Event::Lock { .. }));
    let style = Style {
        size: LABEL,
        bold: opens && !is_grey,
        colour: if is_grey { GREY } else { PLAIN.colour },
        ..PLAIN
    };
    let index = entry.index.map_or(String::new(), |index| index.to_string());
    svg.text(
        layout.index_x,
        y + 4.0,
        &index,
        Style { anchor: Anchor::End, bold: false, class: "index", ..style },
    );
    let struck = run.is_undone(row);
    svg.text(layout.text_x, y + 4.0, &shown(&entry.text), Style { struck, ..style });
    if let Some(x) = layout.far_index_x.filter(|_| !index.is_empty()) {
        svg.text(x, y + 4.0, &index, Style { anchor: Anchor::End, bold: false, colour: GREY, ..style });
    }
    let said = note(run, row);
    if !said.is_empty() {
        svg.text(layout.notes_x, y + 4.0, &said, Style { bold: false, ..style });
    }
}

/// The marks that an event puts on a controller's line, in the sequence of what happened.
fn marks_of(run: &Run, row: usize) -> Vec<(u8, Mark)> {
    let entry = &run.entries[row];
    let Some(event) = entry.event else { return Vec::new() };
    if entry.question != 0 {
        let known =
            event.controller().filter(|id| row > run.lock_row && (1..=run.n()).contains(&usize::from(*id)));
        return known.map(|id| (id, Mark::Refused(entry.question))).into_iter().collect();
    }
    let mut marks = Vec::new();
    match event {
        Event::Vote { id, willing } => {
            marks.push((id, if willing { Mark::Willing } else { Mark::Unwilling }))
        }
        Event::Bell(id) => marks.push((id, Mark::Bell)),
        Event::Stop(id) => marks.push((id, Mark::Stop)),
        Event::Save(id) => marks.push((id, Mark::Save)),
        Event::Restore(id) => marks.push((id, Mark::Restore)),
        Event::Ballot(id, ballot) => marks.push((id, Mark::Ballot(ballot))),
        Event::Back => return marks,
        Event::Lock { .. } | Event::Order(_) | Event::Deliver(_) | Event::Arbiter(..) => {}
    }
    marks.extend(entry.put.iter().map(|(id, word)| (*id, Mark::Put(*word))));
    marks.extend(entry.given.iter().map(|(id, word)| (*id, Mark::Given(*word))));
    for (id, state) in &entry.states {
        let before = run.before(row, usize::from(*id)).outcome;
        if let Some(word) = state.outcome.filter(|_| before.is_none()) {
            marks.push((*id, Mark::Outcome(word)));
        }
    }
    marks
}

fn marks(run: &Run, layout: &Layout, svg: &mut Svg, row: usize, y: f64, used: &mut Used) {
    let mut placed: Vec<u8> = Vec::new();
    let undone = run.is_undone(row);
    for (id, mark) in marks_of(run, row) {
        let before = placed.iter().filter(|other| **other == id).count();
        placed.push(id);
        let at = (layout.x(id) + STEP * before as f64, y);
        let index = run.index(row);
        svg.open(
            &format!("{}{}", mark.class(), if undone { " undone" } else { "" }),
            &format!("{index}: {}", run.entries[row].text),
        );
        draw_mark(svg, at, mark, undone);
        svg.close();
        used.note(Key::Mark(mark));
        if let Mark::Refused(question) = mark {
            let style = Style { size: SMALL, colour: GREY, class: RIM, ..PLAIN };
            svg.text(at.0 + 9.0, at.1 + 3.4, &question.to_string(), style);
        }
    }
    stages(run, layout, svg, row, y, used);
}

/// The stage that a controller has come to by its vote or bell, small at the left of its line.
fn stages(run: &Run, layout: &Layout, svg: &mut Svg, row: usize, y: f64, used: &mut Used) {
    let entry = &run.entries[row];
    if !matches!(entry.event, Some(Event::Vote { .. } | Event::Bell(_))) {
        return;
    }
    for (id, state) in &entry.states {
        if state.stage != run.before(row, usize::from(*id)).stage {
            let style = Style { size: SMALL, colour: GREY, anchor: Anchor::End, class: RIM, ..PLAIN };
            svg.text(layout.x(*id) - 9.0, y + 3.4, &state.stage.to_string(), style);
            used.note(Key::Stage);
        }
    }
}

/// From a step back to the event that it undid, unless that is far above: the words at the right tell it anyway.
fn undone(layout: &Layout, svg: &mut Svg, y: f64, back: usize) {
    let near = layout.y(back).filter(|from| from - y <= FARTHEST * ROW);
    if let Some(from) = near {
        bow(svg, layout.gutter_x, from, y);
    }
}

pub fn bow(svg: &mut Svg, x: f64, from: f64, to: f64) {
    let out = (6.0 + (from - to) * 0.12).min(28.0);
    let d = format!(
        "M{x},{from} C{o},{from} {o},{to} {t},{to}",
        x = num(x),
        from = num(from),
        to = num(to),
        o = num(x + out * 1.3),
        t = num(x + 4.0)
    );
    svg.path(&d, "none", &format!(" stroke=\"{GREY}\" stroke-width=\"1.2\""));
    head(svg, (x, to), (-1.0, 0.0), GREY);
}
