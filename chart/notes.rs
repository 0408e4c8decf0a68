//! What came of an event, in words.

use crate::run::Run;
use crate::words::Event;

pub fn note(run: &Run, row: usize) -> String {
    let entry = &run.entries[row];
    let Some(_) = entry.index else {
        return "no event".to_string();
    };
    if entry.question != 0 {
        return format!("refused: {}", entry.question);
    }
    if let (Some(Event::Back), Some(undone)) = (entry.event, entry.undone) {
        return format!("undoes {undone}");
    }
    let mut said: Vec<String> =
        run.undone_by[row].map(|back| format!("undone by {}", run.index(back))).into_iter().collect();
    said.extend(entry.put.iter().map(|(id, word)| format!("{id} puts {}", word.name())));
    said.extend(entry.given.iter().map(|(id, word)| format!("{id} is given {}", word.name())));
    for (id, state) in &entry.states {
        let before = run.before(row, usize::from(*id));
        let outcome = state.outcome.filter(|_| before.outcome.is_none());
        let moved = (state.position != before.position).then(|| format!("at {} mm", state.position));
        match (outcome, moved) {
            (Some(word), Some(place)) => said.push(format!("{id} holds {}, {place}", word.name())),
            (Some(word), None) => said.push(format!("{id} holds {}", word.name())),
            (None, Some(place)) => said.push(format!("{id} is {place}")),
            (None, None) => {}
        }
    }
    said.join("; ")
}
