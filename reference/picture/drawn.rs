//! What a picture has: titles by class, and where arrows and texts stand.

use super::xml::{self, Element};
use std::collections::BTreeMap;

/// How far an arrow's end may be from the middle of its line or row: a mark stands there.
const NEAR: f64 = 12.0;
/// The baseline of an index is so far below the middle of its row.
const BASELINE: f64 = 4.0;

pub struct Picture {
    svg: Element,
    rows: BTreeMap<String, f64>,
    lanes: BTreeMap<String, f64>,
}

impl Picture {
    pub fn read(text: &str) -> Result<Picture, String> {
        let svg = xml::read(text)?;
        let texts = |class: &str, axis: &str| -> BTreeMap<String, f64> {
            let of_class =
                svg.all().into_iter().filter(|e| e.name == "text" && e.attribute("class") == Some(class));
            of_class.map(|e| (e.text.clone(), number(e, axis))).collect()
        };
        let (rows, lanes) = (texts("index", "y"), texts("head", "x"));
        Ok(Picture { svg, rows, lanes })
    }

    fn groups(&self, class: &str) -> Vec<&Element> {
        let all = self.svg.all().into_iter();
        all.filter(|element| element.name == "g" && element.attribute("class") == Some(class)).collect()
    }

    pub fn titles(&self, class: &str) -> Vec<String> {
        let mut titles: Vec<String> = self.groups(class).iter().map(|group| title(group)).collect();
        titles.sort();
        titles
    }

    pub fn indices(&self) -> Vec<String> {
        let mut found: Vec<String> = self.rows.keys().filter(|index| !index.is_empty()).cloned().collect();
        found.sort();
        found
    }

    /// "KIND 1 to 2: sent at 3, comes at 7": from line 1 at row 3 to line 2 at row 7.
    pub fn arrows_stand_where_they_say(&self) -> Result<(), String> {
        for class in ["comes", "comes again", "comes undone"] {
            for group in self.groups(class) {
                let title = title(group);
                let place =
                    |lane: &str, row: &str| Some((*self.lanes.get(lane)?, *self.rows.get(row)? - BASELINE));
                let words: Vec<&str> = title.split([' ', ':', ',']).filter(|word| !word.is_empty()).collect();
                let to =
                    words.iter().position(|word| *word == "to").ok_or(format!("{title}: no receiver"))?;
                let start = place(words[to - 1], words[to + 4]);
                let end = place(words[to + 1], words[words.len() - 1]);
                let (Some(start), Some(end)) = (start, end) else {
                    return Err(format!("{title}: no such line or row"));
                };
                let heads: Vec<(f64, f64)> = group
                    .children
                    .iter()
                    .filter(|e| e.attribute("stroke").is_none())
                    .filter_map(first_point)
                    .collect();
                let begins =
                    group.children.iter().find(|e| e.attribute("stroke").is_some()).and_then(first_point);
                let wanted = if class == "comes again" { 2 } else { 1 };
                let is_near = |a: (f64, f64), b: (f64, f64)| (a.0 - b.0).hypot(a.1 - b.1) < NEAR;
                if heads.len() != wanted
                    || !is_near(heads[0], end)
                    || !begins.is_some_and(|point| is_near(point, start))
                {
                    return Err(format!(
                        "{title}: drawn from {begins:?} to {heads:?}, and not from {start:?} to {end:?}"
                    ));
                }
            }
        }
        Ok(())
    }

    /// No text stands on another or beyond the picture. A character is taken as 0.6 of the size wide, 0.76 above the baseline
    /// and 0.2 below it.
    pub fn texts_stand_apart(&self) -> Result<(), String> {
        let mut boxes: Vec<([f64; 4], &str)> = Vec::new();
        for element in
            self.svg.all().into_iter().filter(|element| element.name == "text" && !element.text.is_empty())
        {
            boxes.push((text_box(element), &element.text));
        }
        let (width, height) = (number(&self.svg, "width"), number(&self.svg, "height"));
        if let Some((_, text)) = boxes.iter().find(|([left, top, right, bottom], _)| {
            *left < 0.0 || *top < 0.0 || *right > width || *bottom > height
        }) {
            return Err(format!("{text:?} stands beyond the picture"));
        }
        boxes.sort_by(|a, b| a.0[1].total_cmp(&b.0[1]));
        for (at, (one, text)) in boxes.iter().enumerate() {
            for (other, beside) in boxes[at + 1..].iter().take_while(|(other, _)| other[1] < one[3] - 1.0) {
                if one[0] < other[2] - 1.0 && other[0] < one[2] - 1.0 {
                    return Err(format!(
                        "{text:?} at {one:?} and {beside:?} at {other:?} stand on each other"
                    ));
                }
            }
        }
        Ok(())
    }
}

fn title(group: &Element) -> String {
    group
        .children
        .iter()
        .find(|child| child.name == "title")
        .map_or(String::new(), |child| child.text.clone())
}

fn number(element: &Element, name: &str) -> f64 {
    element.attribute(name).and_then(|value| value.parse().ok()).unwrap_or(f64::NAN)
}

/// Where a line or a path begins.
fn first_point(element: &Element) -> Option<(f64, f64)> {
    match element.name.as_str() {
        "line" => Some((number(element, "x1"), number(element, "y1"))),
        "path" => {
            let (x, rest) = element.attribute("d")?.strip_prefix('M')?.split_once(',')?;
            Some((x.parse().ok()?, rest.split(' ').next()?.parse().ok()?))
        }
        _ => None,
    }
}

fn text_box(element: &Element) -> [f64; 4] {
    let (x, y, size) = (number(element, "x"), number(element, "y"), number(element, "font-size"));
    let width = element.text.chars().count() as f64 * size * 0.6;
    let left = match element.attribute("text-anchor") {
        Some("middle") => x - width / 2.0,
        Some("end") => x - width,
        _ => x,
    };
    [left, y - 0.76 * size, left + width, y + 0.2 * size]
}
