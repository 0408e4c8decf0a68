//! Where things stand: the events' words at the left, a line for each controller, what came of it at the right.

use crate::notes::note;
use crate::run::Run;
use crate::svg::width_of;
use crate::telegrams::SMALL;
use crate::words::Event;

pub const ROW: f64 = 24.0;
pub const MARGIN: f64 = 16.0;
pub const LABEL: f64 = 11.0;
/// The controllers' numbers come again after so many rows.
const RULER_EVERY: usize = 25;
/// Unless so few follow.
const RULER_LEAST: usize = 8;
const LEAST_WIDTH: f64 = 640.0;
/// From the top to the first row: title and heads.
const TOP: f64 = 92.0;
/// The longest text of an event that is shown.
pub const LONGEST: usize = 44;

pub struct Layout {
    /// The rows shown, and where.
    pub rows: Vec<usize>,
    y: Vec<Option<f64>>,
    pub rulers: Vec<f64>,
    pub index_x: f64,
    pub text_x: f64,
    pub gutter_x: f64,
    first_lane: f64,
    spacing: f64,
    pub far_index_x: Option<f64>,
    pub notes_x: f64,
    pub width: f64,
    pub bottom: f64,
}

pub fn layout(run: &Run, rows: Vec<usize>) -> Layout {
    let n = run.n() as f64;
    let widest = |texts: &mut dyn Iterator<Item = String>| {
        texts.map(|text| width_of(&text, LABEL)).fold(0.0, f64::max)
    };
    let index =
        widest(&mut rows.iter().map(|row| run.entries[*row].index.map_or(String::new(), |k| k.to_string())));
    let text = widest(&mut rows.iter().map(|row| shown(&run.entries[*row].text)));
    let notes = widest(&mut rows.iter().map(|row| note(run, *row)));
    let has_backs = rows.iter().any(|row| run.entries[*row].event == Some(Event::Back));
    let spacing = if n == 0.0 { 0.0 } else { (760.0 / n).clamp(50.0, 190.0) };
    let text_x = MARGIN + index + 10.0;
    let gutter_x = text_x + text + 8.0;
    let beside = if n == 0.0 { 0.0 } else { label_room(run, &rows, spacing) + 18.0 };
    let first_lane = gutter_x + if has_backs { 34.0 } else { 6.0 } + beside;
    let lanes_end = first_lane + spacing * (n - 1.0).max(0.0) + beside;
    // Far from the left the index stands once more.
    let far_index_x = (n > 0.0 && !is_wide(spacing)).then_some(lanes_end + index);
    let notes_x = far_index_x.map_or(lanes_end, |x| x + 10.0);
    let mut y = vec![None; run.entries.len()];
    let mut rulers = Vec::new();
    let mut at = TOP;
    for (count, row) in rows.iter().enumerate() {
        if count > 0 && count % RULER_EVERY == 0 && rows.len() - count > RULER_LEAST && n > 0.0 {
            rulers.push(at);
            at += ROW;
        }
        y[*row] = Some(at);
        at += ROW;
    }
    Layout {
        rows,
        y,
        rulers,
        index_x: MARGIN + index,
        text_x,
        gutter_x,
        first_lane,
        spacing,
        far_index_x,
        notes_x,
        width: (notes_x + notes + MARGIN).max(LEAST_WIDTH),
        bottom: at,
    }
}

/// Whether the names of telegrams stand in full.
fn is_wide(spacing: f64) -> bool {
    spacing >= 110.0
}

/// The widest label beside a line: of all kinds that one event sends.
fn label_room(run: &Run, rows: &[usize], spacing: f64) -> f64 {
    let label = |row: &usize| {
        let mut kinds: Vec<String> =
            run.entries[*row].sent.iter().map(|route| route.label(is_wide(spacing))).collect();
        kinds.dedup();
        width_of(&kinds.join(" "), SMALL)
    };
    rows.iter().map(label).fold(20.0, f64::max)
}

/// An event's text, cut where it is too long.
pub fn shown(text: &str) -> String {
    if text.chars().count() <= LONGEST {
        return text.to_string();
    }
    text.chars().take(LONGEST - 3).chain("...".chars()).collect()
}

impl Layout {
    pub fn x(&self, id: u8) -> f64 {
        self.first_lane + self.spacing * (f64::from(id) - 1.0)
    }

    pub fn y(&self, row: usize) -> Option<f64> {
        self.y[row]
    }

    pub fn is_wide(&self) -> bool {
        is_wide(self.spacing)
    }

    pub fn heads_y(&self) -> f64 {
        TOP - 24.0
    }
}
