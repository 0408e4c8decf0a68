//! Shapes and text of SVG.

use std::fmt::Write;

/// Dark on white, and grey for what was refused or undone: both are read on white.
pub const INK: &str = "#1a1a1a";
pub const GREY: &str = "#707070";
pub const PALE: &str = "#a8a8a8";
pub const MOVE: &str = "#00704f";
pub const STAY: &str = "#a84300";

/// A character of text takes at most this part of the text's size.
const WIDEST: f64 = 0.62;

pub fn width_of(text: &str, size: f64) -> f64 {
    text.chars().count() as f64 * size * WIDEST
}

#[derive(Default)]
pub struct Svg(pub String);

#[derive(Clone, Copy, PartialEq)]
pub enum Anchor {
    Start,
    Middle,
    End,
}

/// A text's size, weight, colour and place.
#[derive(Clone, Copy)]
pub struct Style {
    pub size: f64,
    pub bold: bool,
    pub colour: &'static str,
    pub anchor: Anchor,
    pub class: &'static str,
    pub struck: bool,
}

/// The class of a text with a white rim, so that it is read over lines.
pub const RIM: &str = "rim";

pub const PLAIN: Style =
    Style { size: 11.0, bold: false, colour: INK, anchor: Anchor::Start, class: "", struck: false };

/// A number with one digit after the point at most.
pub fn num(x: f64) -> String {
    let tenths = (x * 10.0).round() / 10.0;
    if tenths == tenths.trunc() {
        format!("{tenths:.0}")
    } else {
        format!("{tenths:.1}")
    }
}

/// Text as XML has it; a character that XML does not know is shown as a question mark.
pub fn escaped(text: &str) -> String {
    let mut out = String::new();
    for character in text.chars() {
        match character {
            '&' => out.push_str("&amp;"),
            '<' => out.push_str("&lt;"),
            '>' => out.push_str("&gt;"),
            '"' => out.push_str("&quot;"),
            '\u{fffe}' | '\u{ffff}' => out.push('?'),
            c if c.is_control() => out.push('?'),
            c => out.push(c),
        }
    }
    out
}

impl Svg {
    pub fn raw(&mut self, text: &str) {
        self.0.push_str(text);
        self.0.push('\n');
    }

    pub fn add(&mut self, other: Svg) {
        self.0.push_str(&other.0);
    }

    /// A group, with a title that a browser shows under the pointer.
    pub fn open(&mut self, class: &str, title: &str) {
        let _ = write!(self.0, "<g class=\"{class}\">");
        if !title.is_empty() {
            let _ = write!(self.0, "<title>{}</title>", escaped(title));
        }
        self.0.push('\n');
    }

    pub fn close(&mut self) {
        self.raw("</g>");
    }

    pub fn text(&mut self, x: f64, y: f64, text: &str, style: Style) {
        let anchor = match style.anchor {
            Anchor::Start => "",
            Anchor::Middle => " text-anchor=\"middle\"",
            Anchor::End => " text-anchor=\"end\"",
        };
        let bold = if style.bold { " font-weight=\"bold\"" } else { "" };
        let class =
            if style.class.is_empty() { String::new() } else { format!(" class=\"{}\"", style.class) };
        let struck = if style.struck { " text-decoration=\"line-through\"" } else { "" };
        let (x, y, size) = (num(x), num(y), num(style.size));
        let _ = writeln!(
            self.0,
            "<text x=\"{x}\" y=\"{y}\" font-size=\"{size}\" fill=\"{}\"{anchor}{bold}{class}{struck}>{}</text>",
            style.colour,
            escaped(text)
        );
    }

    pub fn line(&mut self, from: (f64, f64), to: (f64, f64), stroke: &str, rest: &str) {
        let [x1, y1, x2, y2] = [from.0, from.1, to.0, to.1].map(num);
        let _ = writeln!(
            self.0,
            "<line x1=\"{x1}\" y1=\"{y1}\" x2=\"{x2}\" y2=\"{y2}\" stroke=\"{stroke}\"{rest}/>"
        );
    }

    pub fn rect(&mut self, at: (f64, f64), size: (f64, f64), fill: &str, rest: &str) {
        let [x, y, w, h] = [at.0, at.1, size.0, size.1].map(num);
        let _ = writeln!(
            self.0,
            "<rect x=\"{x}\" y=\"{y}\" width=\"{w}\" height=\"{h}\" fill=\"{fill}\"{rest}/>"
        );
    }

    pub fn circle(&mut self, at: (f64, f64), r: f64, fill: &str, rest: &str) {
        let [x, y, r] = [at.0, at.1, r].map(num);
        let _ = writeln!(self.0, "<circle cx=\"{x}\" cy=\"{y}\" r=\"{r}\" fill=\"{fill}\"{rest}/>");
    }

    pub fn path(&mut self, d: &str, fill: &str, rest: &str) {
        let _ = writeln!(self.0, "<path d=\"{d}\" fill=\"{fill}\"{rest}/>");
    }

    pub fn polygon(&mut self, at: (f64, f64), corners: &[(f64, f64)], fill: &str, rest: &str) {
        let corners: Vec<String> =
            corners.iter().map(|(x, y)| format!("{},{}", num(at.0 + x), num(at.1 + y))).collect();
        let _ = writeln!(self.0, "<polygon points=\"{}\" fill=\"{fill}\"{rest}/>", corners.join(" "));
    }
}
