//! The marks on a controller's line. Each has a shape of its own; colour only helps.

use crate::svg::{Anchor, Style, Svg, GREY, INK, MOVE, PALE, PLAIN, STAY};
use crate::words::Word;

type Point = (f64, f64);

/// What a mark says; the legend has them in this sequence.
#[derive(Clone, Copy, PartialEq, Eq, PartialOrd, Ord, Debug)]
pub enum Mark {
    Willing,
    Unwilling,
    Bell,
    Put(Word),
    Given(Word),
    Outcome(Word),
    Ballot(u32),
    Stop,
    Save,
    Restore,
    Refused(u8),
}

impl Mark {
    pub fn class(self) -> &'static str {
        match self {
            Mark::Willing | Mark::Unwilling => "vote",
            Mark::Bell => "bell",
            Mark::Put(_) => "put",
            Mark::Given(_) => "given",
            Mark::Outcome(Word::Move) => "move",
            Mark::Outcome(Word::Stay) => "stay",
            Mark::Ballot(_) => "ballot",
            Mark::Stop => "stop",
            Mark::Save => "save",
            Mark::Restore => "restore",
            Mark::Refused(_) => "refused",
        }
    }
}

/// Half the width of a mark.
pub const HALF: f64 = 8.0;

const THICK: &str = " stroke-width=\"1.6\"";

fn letter(svg: &mut Svg, at: Point, text: &str, colour: &'static str) {
    let style = Style { size: 9.5, bold: true, colour, anchor: Anchor::Middle, ..PLAIN };
    svg.text(at.0, at.1 + 3.4, text, style);
}

/// Draws a mark; in grey where its event was undone.
pub fn draw(svg: &mut Svg, at: Point, mark: Mark, undone: bool) {
    let ink = if undone { PALE } else { INK };
    let outline = format!(" stroke=\"{ink}\"{THICK}");
    match mark {
        Mark::Willing => vote(svg, at, true, ink),
        Mark::Unwilling => vote(svg, at, false, ink),
        Mark::Bell => bell(svg, at, ink, undone),
        Mark::Put(word) => {
            diamond(svg, at, "#fff", &outline);
            letter(svg, at, word.letter(), if undone { GREY } else { INK });
        }
        Mark::Given(word) => {
            diamond(svg, at, ink, &outline);
            letter(svg, at, word.letter(), "#fff");
        }
        Mark::Outcome(word) => outcome(svg, at, word, undone),
        Mark::Ballot(number) => {
            let flat = [(-12.0, 0.0), (-8.0, -7.0), (8.0, -7.0), (12.0, 0.0), (8.0, 7.0), (-8.0, 7.0)];
            svg.polygon(at, &flat, "#fff", &outline);
            letter(svg, at, &number.to_string(), if undone { GREY } else { INK });
        }
        Mark::Stop => {
            let (a, b) = (7.0, 3.0);
            let eight = [(-b, -a), (b, -a), (a, -b), (a, b), (b, a), (-b, a), (-a, b), (-a, -b)];
            svg.polygon(at, &eight, ink, "");
            svg.line((at.0 - 4.0, at.1), (at.0 + 4.0, at.1), "#fff", " stroke-width=\"2.4\"");
        }
        Mark::Save => card(svg, at, ink, &[(-3.5, -1.5), (3.5, -1.5), (0.0, 3.0)]),
        Mark::Restore => card(svg, at, ink, &[(-3.5, 2.0), (3.5, 2.0), (0.0, -2.5)]),
        Mark::Refused(_) => {
            svg.circle(at, 5.0, "#fff", &format!(" stroke=\"{GREY}\" stroke-width=\"1.4\""));
            svg.line((at.0 - 3.5, at.1 + 3.5), (at.0 + 3.5, at.1 - 3.5), GREY, " stroke-width=\"1.4\"");
        }
    }
}

fn vote(svg: &mut Svg, at: Point, willing: bool, ink: &str) {
    svg.circle(at, 6.5, "#fff", &format!(" stroke=\"{ink}\"{THICK}"));
    svg.line((at.0 - 3.5, at.1), (at.0 + 3.5, at.1), ink, THICK);
    if willing {
        svg.line((at.0, at.1 - 3.5), (at.0, at.1 + 3.5), ink, THICK);
    }
}

fn bell(svg: &mut Svg, (x, y): Point, ink: &str, undone: bool) {
    let fill = if undone { "#fff" } else { "#f4c542" };
    let body = format!("M{},{} h14 l-2.5,-3.5 v-3.5 a4.5,4.5 0 0 0 -9,0 v3.5 z", x - 7.0, y + 4.0);
    svg.circle((x, y + 5.5), 2.0, ink, "");
    svg.path(&body, fill, &format!(" stroke=\"{ink}\" stroke-width=\"1.2\" stroke-linejoin=\"round\""));
}

fn diamond(svg: &mut Svg, at: Point, fill: &str, rest: &str) {
    svg.polygon(at, &[(0.0, -10.0), (10.0, 0.0), (0.0, 10.0), (-10.0, 0.0)], fill, rest);
}

pub fn outcome(svg: &mut Svg, at: Point, word: Word, undone: bool) {
    let fill = |colour| if undone { PALE } else { colour };
    match word {
        Word::Move => svg.circle(at, HALF, fill(MOVE), ""),
        Word::Stay => svg.rect((at.0 - 7.0, at.1 - 7.0), (14.0, 14.0), fill(STAY), ""),
    }
    letter(svg, at, word.letter(), "#fff");
}

/// A card, with what is on it.
fn card(svg: &mut Svg, at: Point, ink: &str, arrow: &[Point]) {
    let corners = [(-8.0, -6.0), (5.0, -6.0), (8.0, -3.0), (8.0, 6.0), (-8.0, 6.0)];
    svg.polygon(at, &corners, "#fff", &format!(" stroke=\"{ink}\" stroke-width=\"1.3\""));
    svg.polygon(at, arrow, ink, "");
}
