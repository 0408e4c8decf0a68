//! Pictures of runs, held against the traces that they were drawn from.

pub mod drawn;
pub mod told;
pub mod xml;

use drawn::Picture;
use told::Told;

const TELEGRAMS: [&str; 5] = ["comes", "comes again", "comes undone", "lost", "lost undone"];

/// What a set of pictures has.
#[derive(Default)]
pub struct Met {
    rows: Vec<(String, u64)>,
}

impl Met {
    pub fn add(&mut self, name: &str, count: usize) {
        match self.rows.iter_mut().find(|(other, _)| other == name) {
            Some((_, met)) => *met += count as u64,
            None => self.rows.push((name.to_string(), count as u64)),
        }
    }

    pub fn rows(&self) -> &[(String, u64)] {
        &self.rows
    }
}

/// An error says what the picture has and the trace has not, or the other way round.
pub fn compare(trace: &str, svg: &str, met: &mut Met) -> Result<(), String> {
    let told = Told::read(trace);
    let picture = Picture::read(svg)?;
    for class in TELEGRAMS {
        same(class, &told.telegrams(class), &picture.titles(class))?;
        met.add(class, told.telegrams(class).len());
    }
    for mark in told::MARKS {
        for class in [mark.to_string(), format!("{mark} undone")] {
            same(&class, &told.marks(&class), &picture.titles(&class))?;
        }
        met.add(mark, told.marks(mark).len());
    }
    same("indices", &told.indices(), &picture.indices())?;
    picture.arrows_stand_where_they_say()?;
    picture.texts_stand_apart()
}

/// The pictures of a trace's orders, one by one: together they have each of its telegrams once.
pub fn compare_orders(
    trace: &str,
    draw: impl Fn(u32) -> Result<String, String>,
    met: &mut Met,
) -> Result<(), String> {
    let told = Told::read(trace);
    let mut pictures = Vec::new();
    for order in told.orders() {
        let picture = Picture::read(&draw(order)?)?;
        picture.arrows_stand_where_they_say()?;
        picture.texts_stand_apart()?;
        pictures.push(picture);
    }
    for class in TELEGRAMS {
        let mut titles: Vec<String> = pictures.iter().flat_map(|picture| picture.titles(class)).collect();
        titles.sort();
        same(class, &told.telegrams(class), &titles)?;
    }
    met.add("orders drawn alone", pictures.len());
    Ok(())
}

fn same(what: &str, told: &[String], drawn: &[String]) -> Result<(), String> {
    if told == drawn {
        return Ok(());
    }
    let missing = told.iter().find(|title| !drawn.contains(title));
    let added = drawn.iter().find(|title| !told.contains(title));
    Err(format!(
        "{what}: {} told, {} drawn; not drawn: {missing:?}, not told: {added:?}",
        told.len(),
        drawn.len()
    ))
}
