//! What the marks say: of those that the picture has; and the questions that refused an event, in words.

use crate::lanes::stroke;
use crate::layout::{Layout, MARGIN};
use crate::losses::dashed;
use crate::marks::{draw as draw_mark, Mark};
use crate::rows::bow;
use crate::run::Run;
use crate::svg::{width_of, Anchor, Style, Svg, GREY, PLAIN};
use crate::telegrams::{head, SMALL};
use crate::trace::{State, STANDING_BY, STOPPED};
use crate::words::{Kind, Word};
use std::collections::{BTreeMap, BTreeSet};

/// What a picture may have, in the legend's sequence.
#[derive(Clone, Copy, PartialEq, Eq, PartialOrd, Ord, Debug)]
pub enum Entry {
    LineRunning,
    LineOutcome,
    LineStopped,
    LineStandingBy,
    Arrow,
    Again,
    Lost,
    Stage,
    Mark(Mark),
    Undone,
}

#[derive(Default)]
pub struct Used {
    entries: BTreeSet<Entry>,
    telegrams: BTreeSet<Kind>,
}

impl Used {
    /// A mark with a number stands once, with any.
    pub fn note(&mut self, entry: Entry) {
        self.entries.insert(match entry {
            Entry::Mark(Mark::Ballot(_)) => Entry::Mark(Mark::Ballot(7)),
            Entry::Mark(Mark::Refused(_)) => Entry::Mark(Mark::Refused(16)),
            Entry::Mark(Mark::Put(_)) => Entry::Mark(Mark::Put(Word::Move)),
            Entry::Mark(Mark::Given(_)) => Entry::Mark(Mark::Given(Word::Move)),
            other => other,
        });
    }

    pub fn telegram(&mut self, kind: Kind) {
        self.telegrams.insert(kind);
    }
}

fn meaning(entry: Entry) -> &'static str {
    match entry {
        Entry::LineRunning => "running, no outcome yet",
        Entry::LineOutcome => "has its outcome",
        Entry::LineStopped => "stopped",
        Entry::LineStandingBy => "standing by",
        Entry::Arrow => "telegram, sent and come",
        Entry::Again => "comes once more",
        Entry::Lost => "never comes: lost",
        Entry::Stage => "the stage reached",
        Entry::Mark(Mark::Willing) => "votes willing",
        Entry::Mark(Mark::Unwilling) => "votes unwilling",
        Entry::Mark(Mark::Bell) => "bell",
        Entry::Mark(Mark::Put(_)) => "puts a word (M Move, S Stay)",
        Entry::Mark(Mark::Given(_)) => "is given a word",
        Entry::Mark(Mark::Outcome(Word::Move)) => "outcome Move",
        Entry::Mark(Mark::Outcome(Word::Stay)) => "outcome Stay",
        Entry::Mark(Mark::Ballot(_)) => "opens the ballot of that number",
        Entry::Mark(Mark::Stop) => "stops",
        Entry::Mark(Mark::Save) => "saves its card",
        Entry::Mark(Mark::Restore) => "is restored from its card",
        Entry::Mark(Mark::Refused(_)) => "refused, by that question",
        Entry::Undone => "undone (grey), by a step back",
    }
}

fn sample(svg: &mut Svg, entry: Entry, (x, y): (f64, f64)) {
    let (left, right) = ((x - 16.0, y), (x + 16.0, y));
    let state = |stage, outcome| State { stage, outcome, position: 0 };
    match entry {
        Entry::LineRunning => stroke(svg, left, right, &state(0, None)),
        Entry::LineOutcome => {
            stroke(svg, (left.0, y - 3.0), (right.0, y - 3.0), &state(0, Some(Word::Move)));
            stroke(svg, (left.0, y + 3.0), (right.0, y + 3.0), &state(0, Some(Word::Stay)));
        }
        Entry::LineStopped => stroke(svg, left, right, &state(STOPPED, None)),
        Entry::LineStandingBy => stroke(svg, left, right, &state(STANDING_BY, None)),
        Entry::Arrow | Entry::Again => {
            svg.line(left, (right.0 - 5.0, y), PLAIN.colour, " stroke-width=\"1.2\"");
            head(svg, right, (1.0, 0.0), PLAIN.colour);
            if entry == Entry::Again {
                head(svg, (right.0 - 9.0, y), (1.0, 0.0), PLAIN.colour);
            }
        }
        Entry::Lost => dashed(svg, left, left, (right.0 - 3.0, y), PLAIN.colour),
        Entry::Stage => svg.text(
            x,
            y + 3.4,
            "1 2 3",
            Style { size: SMALL, colour: GREY, anchor: Anchor::Middle, ..PLAIN },
        ),
        Entry::Undone => bow(svg, x - 8.0, y + 6.0, y - 6.0),
        Entry::Mark(Mark::Refused(question)) => {
            draw_mark(svg, (x - 8.0, y), Mark::Refused(question), false);
            svg.text(x + 1.0, y + 3.4, &question.to_string(), Style { size: SMALL, colour: GREY, ..PLAIN });
        }
        Entry::Mark(mark) => draw_mark(svg, (x, y), mark, false),
    }
}

/// Draws from `top` on; answers where it ends.
pub fn draw(run: &Run, layout: &Layout, svg: &mut Svg, used: &Used, top: f64) -> f64 {
    let cell = 250.0;
    let columns = ((layout.width - 2.0 * MARGIN) / cell).floor().max(1.0) as usize;
    let mut y = top;
    svg.line((MARGIN, y), (layout.width - MARGIN, y), "#c4c4c4", "");
    y += 18.0;
    for (count, entry) in used.entries.iter().enumerate() {
        let x = MARGIN + cell * (count % columns) as f64;
        let line = y + 22.0 * (count / columns) as f64;
        sample(svg, *entry, (x + 20.0, line));
        svg.text(x + 46.0, line + 4.0, meaning(*entry), PLAIN);
    }
    y += 22.0 * used.entries.len().div_ceil(columns) as f64;
    let mut texts = Vec::new();
    let short = used.telegrams.iter().filter(|kind| kind.short() != kind.name());
    let short: Vec<String> = short.map(|kind| format!("{} = {}", kind.short(), kind.name())).collect();
    if !layout.is_wide() && !short.is_empty() {
        texts.push(format!("Telegrams: {}", short.join(", ")));
    }
    for (question, words) in questions(run, layout) {
        texts.push(format!("refused {question}: {words}"));
    }
    if run.n() > 0 {
        texts.push("Below each line: the outcome (- none), and the gate's position in mm.".to_string());
    }
    for text in texts {
        y = paragraph(svg, layout.width, y, &text);
    }
    y
}

fn questions<'a>(run: &'a Run, layout: &Layout) -> BTreeMap<u8, &'a str> {
    let entries = layout.rows.iter().map(|row| &run.entries[*row]);
    entries.filter(|entry| entry.question != 0).map(|entry| (entry.question, entry.words.as_str())).collect()
}

/// A text over as many lines as it needs.
fn paragraph(svg: &mut Svg, width: f64, top: f64, text: &str) -> f64 {
    let room = width - 2.0 * MARGIN;
    let (mut y, mut line) = (top, String::new());
    for word in text.split(' ') {
        let longer = if line.is_empty() { word.to_string() } else { format!("{line} {word}") };
        if width_of(&longer, PLAIN.size) > room && !line.is_empty() {
            svg.text(MARGIN, y + 4.0, &line, PLAIN);
            y += 16.0;
            line = format!("    {word}");
        } else {
            line = longer;
        }
    }
    svg.text(MARGIN, y + 4.0, &line, PLAIN);
    y + 18.0
}
