//! What the commands of standard input meet of sheets that contradict each other (document 02, U7): the number of
//! refusals by 24, then a row for each way; fails on an answer that the sheets held do not ask for, and on a row that is 0.

use reference::command::{self, Command};
use reference::contradictions::Contradictions;
use reference::controller::Controller;
use std::io::{self, Read};
use std::process::ExitCode;

fn main() -> ExitCode {
    match count() {
        Ok(()) => ExitCode::SUCCESS,
        Err(error) => {
            eprintln!("contradictions: {error}");
            ExitCode::FAILURE
        }
    }
}

fn count() -> io::Result<()> {
    let mut commands = Vec::new();
    io::stdin().lock().read_to_end(&mut commands)?;
    let mut met = Contradictions::default();
    let mut controller: Option<Controller> = None;
    for (index, bytes) in commands.chunks(command::LENGTH).enumerate() {
        let error = |text: &str| io::Error::other(format!("command {index}: {text}"));
        let command = Command::read(bytes).ok_or_else(|| error("not of a listed form"))?;
        if let Command::Fresh {
            group, id, order, ..
        } = command
        {
            controller = Some(Controller::new(group, id, order));
        }
        let controller = controller
            .as_mut()
            .ok_or_else(|| error("no controller yet"))?;
        let before = controller.clone();
        let (answer, _) = command.call(controller);
        met.add(&command, &before, controller, &answer)
            .map_err(|text| error(&text))?;
    }
    println!("{} refusals by 24", met.refusals());
    let rows = met.rows();
    for (name, count) in &rows {
        println!("{count:>9} {name}");
    }
    match rows.iter().find(|(_, count)| *count == 0) {
        None => Ok(()),
        Some((name, _)) => Err(io::Error::other(format!("never met: {name}"))),
    }
}
