//! The whole picture.

use crate::lanes;
use crate::layout::{layout, MARGIN};
use crate::legend::{self, Used};
use crate::losses;
use crate::rows;
use crate::run::Run;
use crate::svg::{num, Style, Svg, GREY, PLAIN};
use crate::telegrams;

const STYLE: &str =
    "<style>text{font-family:'DejaVu Sans',Verdana,Helvetica,Arial,sans-serif;white-space:pre}\
.rim{paint-order:stroke;stroke:#fff;stroke-width:4.5px;stroke-linejoin:round}</style>";

/// The picture of a run, or of one order of it; none where that order was not opened.
pub fn picture(run: &Run, order: Option<u32>) -> Option<String> {
    let all = 0..run.entries.len();
    let rows: Vec<usize> = match order {
        None => all.collect(),
        Some(_) => all.filter(|row| run.order_number(*row) == order).collect(),
    };
    if order.is_some() && rows.is_empty() {
        return None;
    }
    let layout = layout(run, rows);
    let mut used = Used::default();
    let (mut grounds, mut lines, mut labels, mut marks) =
        (Svg::default(), Svg::default(), Svg::default(), Svg::default());
    lanes::grounds(run, &layout, &mut grounds);
    lanes::draw(run, &layout, &mut grounds, &mut used);
    lanes::rulers(run, &layout, &mut labels);
    losses::draw(run, &layout, &mut lines, &mut labels, &mut used);
    telegrams::draw(run, &layout, &mut lines, &mut labels, &mut used);
    rows::draw(run, &layout, &mut marks, &mut used);
    let feet = if run.n() > 0 { lanes::FEET } else { 0.0 };
    let mut last = Svg::default();
    title(run, &layout.rows, &mut last);
    let end = legend::draw(run, &layout, &mut last, &used, layout.bottom + feet);
    let (width, height) = (num(layout.width), num(end));
    let mut svg = Svg::default();
    svg.raw(&format!(
        "<svg xmlns=\"http://www.w3.org/2000/svg\" width=\"{width}\" height=\"{height}\" viewBox=\"0 0 {width} {height}\">"
    ));
    svg.raw(STYLE);
    svg.rect((0.0, 0.0), (layout.width, end), "#fff", "");
    for layer in [grounds, lines, labels, marks, last] {
        svg.add(layer);
    }
    svg.raw("</svg>");
    Some(svg.0)
}

fn title(run: &Run, rows: &[usize], svg: &mut Svg) {
    let orders = || rows.iter().filter_map(|row| run.order_number(*row));
    let opened = match (orders().min(), orders().max()) {
        (Some(first), Some(last)) if first < last => format!("orders {first} to {last}"),
        (Some(one), _) => format!("order {one}"),
        _ => "no order".to_string(),
    };
    let (head, kind) = match run.lock {
        None => ("no lock".to_string(), ""),
        Some(lock) if lock.own_arbiter => (
            format!("n = {}, f = {}, {opened}", lock.n, lock.f),
            "a lock without an arbiter: ballots settle the word; ",
        ),
        Some(lock) => (format!("n = {}, f = {}, {opened}", lock.n, lock.f), "a lock with an arbiter; "),
    };
    svg.text(MARGIN, 28.0, &head, Style { size: 18.0, bold: true, ..PLAIN });
    let count = rows.iter().filter(|row| run.entries[**row].index.is_some()).count();
    let events = if count == 1 { "event" } else { "events" };
    let below = format!("{kind}{count} {events}, time runs downward");
    svg.text(MARGIN, 46.0, &below, Style { size: 12.0, colour: GREY, ..PLAIN });
}
