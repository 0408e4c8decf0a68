//! Telegrams that come: an arrow from the sending to each coming.

use crate::layout::Layout;
use crate::legend::{Entry, Used};
use crate::run::{Run, Telegram};
use crate::svg::{num, Anchor, Style, Svg, GREY, PALE, PLAIN, RIM};

pub type Point = (f64, f64);

const HEAD: f64 = 9.0;
/// A label beside a line.
pub const SMALL: f64 = 9.5;
/// An arrow that would run over the head of a shorter one from the same place is bent by so much.
const BEND: f64 = 11.0;

/// Lines into one layer, labels into another above it.
pub fn draw(run: &Run, layout: &Layout, lines: &mut Svg, labels: &mut Svg, used: &mut Used) {
    let arrows = arrows(run, layout);
    for (at, arrow) in arrows.iter().enumerate() {
        let from_here = arrows[..at].iter().rev().chain(&arrows[at + 1..]);
        let near = from_here.filter(|other| other.from == arrow.from);
        let passed = near.filter(|other| arrow.runs_over(other)).count();
        arrow.draw(run, layout.is_wide(), passed as f64 * BEND, lines, labels);
        used.note(if arrow.again { Entry::Again } else { Entry::Arrow });
        used.telegram(arrow.telegram.route.kind);
    }
}

struct Arrow<'a> {
    telegram: &'a Telegram,
    row: usize,
    from: Point,
    to: Point,
    undone: bool,
    again: bool,
}

fn arrows<'a>(run: &'a Run, layout: &Layout) -> Vec<Arrow<'a>> {
    let mut arrows = Vec::new();
    for telegram in &run.telegrams {
        let Some(y) = layout.y(telegram.sent) else { continue };
        let from = (layout.x(telegram.route.from), y);
        let mut first = true;
        for row in &telegram.comes {
            let Some(y) = layout.y(*row) else { continue };
            let undone = run.is_undone(*row);
            let again = !undone && !std::mem::take(&mut first);
            arrows.push(Arrow {
                telegram,
                row: *row,
                from,
                to: (layout.x(telegram.route.to), y),
                undone,
                again,
            });
        }
    }
    arrows
}

impl Arrow<'_> {
    /// Whether the straight line meets the end of that shorter one.
    fn runs_over(&self, other: &Arrow) -> bool {
        let (x, y) = (self.to.0 - self.from.0, self.to.1 - self.from.1);
        let (ox, oy) = (other.to.0 - self.from.0, other.to.1 - self.from.1);
        let length = x.hypot(y);
        let is_shorter = ox.hypot(oy) < length - 1.0 && x * ox + y * oy > 0.0;
        is_shorter && (x * oy - y * ox).abs() < 6.0 * length
    }

    fn title(&self, run: &Run) -> String {
        let (sent, comes) = (run.index(self.telegram.sent), run.index(self.row));
        format!("{}: sent at {sent}, comes at {comes}", self.telegram.route.title())
    }

    fn class(&self) -> &'static str {
        match (self.undone, self.again) {
            (true, _) => "comes undone",
            (_, true) => "comes again",
            _ => "comes",
        }
    }

    /// Beside the middle of the straight line, above it.
    fn bent(&self, bend: f64) -> Point {
        let (dx, dy) = direction(self.from, self.to);
        let (x, y) = ((self.from.0 + self.to.0) / 2.0, (self.from.1 + self.to.1) / 2.0);
        (x + dy * bend * dx.signum(), y - dx.abs() * bend)
    }

    fn draw(&self, run: &Run, full: bool, bend: f64, lines: &mut Svg, labels: &mut Svg) {
        let route = &self.telegram.route;
        let colour = if self.undone { PALE } else { route.kind.colour() };
        let middle = self.bent(bend);
        let (dx, dy) = direction(middle, self.to);
        // A word that it made the controller put has its mark there.
        let puts = !run.entries[self.row].put.is_empty();
        let before_end = |by: f64| (self.to.0 - dx * by, self.to.1 - dy * by);
        let room = if puts { 10.5 } else { 0.8 };
        lines.open(self.class(), &self.title(run));
        curve(lines, self.from, middle, before_end(room + 5.0), colour);
        head(lines, before_end(room), (dx, dy), colour);
        if self.again {
            head(lines, before_end(room + HEAD), (dx, dy), colour);
        }
        lines.close();
        let style =
            Style { size: SMALL, colour: if self.undone { GREY } else { colour }, class: RIM, ..PLAIN };
        let is_right = self.to.0 > self.from.0;
        let above = (self.to.0, self.to.1 - 3.0);
        beside(labels, above, is_right, if puts { 13.0 } else { 5.0 }, &route.label(full), style);
    }
}

fn curve(svg: &mut Svg, from: Point, middle: Point, to: Point, colour: &str) {
    let [a, b, c, d, e, f] = [from.0, from.1, middle.0, middle.1, to.0, to.1].map(num);
    let stroke = format!(" stroke=\"{colour}\" stroke-width=\"1.2\"");
    svg.path(&format!("M{a},{b} Q{c},{d} {e},{f}"), "none", &stroke);
}

/// A label beside a line, to the right of it or to the left.
pub fn beside(svg: &mut Svg, at: Point, right: bool, off: f64, text: &str, style: Style) {
    let (x, anchor) = if right { (at.0 + off, Anchor::Start) } else { (at.0 - off, Anchor::End) };
    svg.text(x, at.1 + 3.4, text, Style { anchor, ..style });
}

fn direction(from: Point, to: Point) -> Point {
    let (x, y) = (to.0 - from.0, to.1 - from.1);
    let length = x.hypot(y).max(0.1);
    (x / length, y / length)
}

pub fn head(svg: &mut Svg, tip: Point, (dx, dy): Point, colour: &str) {
    let back = (tip.0 - dx * HEAD, tip.1 - dy * HEAD);
    let (wx, wy) = (-dy * 3.6, dx * 3.6);
    let corner = |x: f64, y: f64| format!("{},{}", num(x), num(y));
    let d = format!(
        "M{} L{} L{} Z",
        corner(tip.0, tip.1),
        corner(back.0 + wx, back.1 + wy),
        corner(back.0 - wx, back.1 - wy)
    );
    svg.path(&d, colour, "");
}
