//! What a trace tells of telegrams and marks, line by line: the titles that its picture must have.

use std::collections::{BTreeMap, BTreeSet};

pub const MARKS: [&str; 11] =
    ["vote", "bell", "put", "given", "move", "stay", "ballot", "stop", "save", "restore", "refused"];

/// An event: its text, and the lines below its answer.
struct Part<'a> {
    index: usize,
    text: &'a str,
    answer: &'a str,
    below: Vec<&'a str>,
}

/// The step back that undid each undone event.
type Undone = BTreeMap<usize, usize>;

#[derive(Default)]
pub struct Told {
    indices: Vec<String>,
    orders: BTreeSet<u32>,
    titles: BTreeMap<String, Vec<String>>,
}

impl Told {
    pub fn read(trace: &str) -> Told {
        let parts = parts(trace);
        let backs = parts
            .iter()
            .flat_map(|part| numbers_after(part, "undone ").into_iter().map(|index| (index, part.index)));
        let undone: Undone = backs.collect();
        let mut told =
            Told { indices: parts.iter().map(|part| part.index.to_string()).collect(), ..Told::default() };
        told.indices.sort();
        let opened =
            parts.iter().filter(|part| is_accepted(part)).filter_map(|part| part.text.strip_prefix("order "));
        told.orders = opened.filter_map(|number| number.parse().ok()).collect();
        told.tell_telegrams(&parts, &undone);
        told.tell_marks(&parts, &undone);
        told.titles.values_mut().for_each(|titles| titles.sort());
        told
    }

    pub fn indices(&self) -> Vec<String> {
        self.indices.clone()
    }

    /// The orders opened, those undone too.
    pub fn orders(&self) -> impl Iterator<Item = u32> + '_ {
        self.orders.iter().copied()
    }

    pub fn telegrams(&self, class: &str) -> Vec<String> {
        self.titles.get(class).cloned().unwrap_or_default()
    }

    pub fn marks(&self, class: &str) -> Vec<String> {
        self.telegrams(class)
    }

    fn add(&mut self, class: &str, title: String) {
        self.titles.entry(class.to_string()).or_default().push(title);
    }

    /// The events left, as if there were no others; then the undone ones, each by what stood before it.
    fn tell_telegrams(&mut self, parts: &[Part], undone: &Undone) {
        let mut order = 0;
        let mut sent: BTreeMap<(usize, &str), (usize, usize)> = BTreeMap::new();
        for part in parts.iter().filter(|part| is_accepted(part) && !undone.contains_key(&part.index)) {
            if part.text.starts_with("order ") {
                order = part.index;
            }
            for route in lines_after(part, "sent ") {
                sent.insert((order, route), (part.index, 0));
            }
            if let Some(route) = part.text.strip_prefix("deliver ") {
                let (from, times) = sent.get_mut(&(order, route)).map_or((usize::MAX, 0), |(from, times)| {
                    *times += 1;
                    (*from, *times)
                });
                self.add(if times > 1 { "comes again" } else { "comes" }, came(route, from, part.index));
            }
        }
        for ((_, route), (from, times)) in &sent {
            if *times == 0 {
                self.add("lost", lost(route, *from));
            }
        }
        self.tell_undone(parts, undone);
    }

    fn tell_undone(&mut self, parts: &[Part], undone: &Undone) {
        let deliveries = parts
            .iter()
            .filter(|part| is_accepted(part))
            .filter_map(|part| Some((part, part.text.strip_prefix("deliver ")?)));
        let came_at: Vec<(usize, &str, usize)> = deliveries
            .map(|(part, route)| (sender(parts, undone, route, part.index), route, part.index))
            .collect();
        for (from, route, at) in came_at.iter().filter(|(_, _, at)| undone.contains_key(at)) {
            self.add("comes undone", came(route, *from, *at));
        }
        for part in parts.iter().filter(|part| undone.contains_key(&part.index)) {
            for route in lines_after(part, "sent ") {
                if !came_at.iter().any(|(from, other, _)| *from == part.index && *other == route) {
                    self.add("lost undone", lost(route, part.index));
                }
            }
        }
    }

    fn tell_marks(&mut self, parts: &[Part], undone: &Undone) {
        let mut n = 0;
        let mut outcomes: BTreeMap<&str, &str> = BTreeMap::new();
        for part in parts {
            let title = format!("{}: {}", part.index, part.text);
            let rest = if undone.contains_key(&part.index) { " undone" } else { "" };
            let words: Vec<&str> = part.text.split(' ').collect();
            if !is_accepted(part) {
                let id =
                    if words[0] == "deliver" { words[words.len() - 1] } else { words.get(1).unwrap_or(&"0") };
                let is_shown = !["lock", "order", "back"].contains(&words[0]);
                if is_shown && (1..=n).contains(&id.parse().unwrap_or(0)) {
                    self.add("refused", title);
                }
                continue;
            }
            if words[0] == "lock" {
                n = words[1].parse().unwrap_or(0);
            }
            if MARKS.contains(&words[0]) {
                self.add(&format!("{}{rest}", words[0]), title.clone());
            }
            for kind in ["put", "given"] {
                for _ in lines_after(part, &format!("{kind} ")) {
                    self.add(&format!("{kind}{rest}"), title.clone());
                }
            }
            for line in lines_after(part, "C ") {
                let fields: Vec<&str> = line.split(' ').collect();
                let before = outcomes.insert(fields[0], fields[2]).unwrap_or("-");
                let class = if fields[2] == "M" { "move" } else { "stay" };
                if words[0] != "back" && before == "-" && fields[2] != "-" {
                    self.add(&format!("{class}{rest}"), title.clone());
                }
            }
        }
    }
}

/// The last event before that sent it and is not undone by then.
fn sender(parts: &[Part], undone: &Undone, route: &str, at: usize) -> usize {
    let stands = |part: &&Part| undone.get(&part.index).is_none_or(|back| *back > at);
    let sends = |part: &&Part| lines_after(part, "sent ").contains(&route);
    parts[..at].iter().rev().filter(stands).find(sends).map_or(usize::MAX, |part| part.index)
}

fn parts(trace: &str) -> Vec<Part<'_>> {
    let mut parts: Vec<Part> = Vec::new();
    let mut text = "";
    for line in trace.lines() {
        if let Some(event) = line.strip_prefix("> ") {
            text = event;
        } else if line.starts_with(|c: char| c.is_ascii_digit()) {
            let (index, answer) = line.split_once(' ').unwrap_or((line, ""));
            parts.push(Part { index: index.parse().unwrap_or(0), text, answer, below: Vec::new() });
        } else if let Some(part) = parts.last_mut() {
            part.below.push(line);
        }
    }
    parts
}

fn is_accepted(part: &Part) -> bool {
    part.answer == "0 accepted"
}

fn lines_after<'a>(part: &Part<'a>, word: &str) -> Vec<&'a str> {
    part.below.iter().filter_map(|line| line.strip_prefix(word)).collect()
}

fn numbers_after(part: &Part, word: &str) -> Vec<usize> {
    lines_after(part, word).iter().filter_map(|number| number.parse().ok()).collect()
}

/// `vote 1 2` as `vote 1 to 2`, `ask 4 1 2` as `ask 4 1 to 2`.
fn between(route: &str) -> String {
    let (before, to) = route.rsplit_once(' ').unwrap_or((route, ""));
    format!("{before} to {to}")
}

fn came(route: &str, from: usize, at: usize) -> String {
    format!("{}: sent at {from}, comes at {at}", between(route))
}

fn lost(route: &str, from: usize) -> String {
    format!("{}: sent at {from}, never comes", between(route))
}
