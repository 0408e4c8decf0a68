//! What the commands of standard input meet of ballots (document 02, U14): a row for each reason for which one was taken or
//! passed over; fails on an answer that has no reason, or on a row that is 0.

use reference::ballot_commands::BallotCommands;
use reference::command::{self, Command};
use reference::controller::Controller;
use reference::rows;
use std::io::{self, Read};
use std::process::ExitCode;

fn main() -> ExitCode {
    match count() {
        Ok(()) => ExitCode::SUCCESS,
        Err(error) => {
            eprintln!("ballot_controller: {error}");
            ExitCode::FAILURE
        }
    }
}

fn count() -> io::Result<()> {
    let mut commands = Vec::new();
    io::stdin().lock().read_to_end(&mut commands)?;
    let mut met = BallotCommands::default();
    let mut controller: Option<Controller> = None;
    let mut sequences = 0;
    for (index, bytes) in commands.chunks(command::LENGTH).enumerate() {
        let error = |text: &str| io::Error::other(format!("command {index}: {text}"));
        let command = Command::read(bytes).ok_or_else(|| error("not of a listed form"))?;
        if let Command::Fresh {
            group, id, order, ..
        } = command
        {
            controller = Some(Controller::new(group, id, order));
            sequences += 1;
        }
        let controller = controller
            .as_mut()
            .ok_or_else(|| error("no controller yet"))?;
        let before = controller.clone();
        let (answer, _) = command.call(controller);
        met.add(&command, &before, controller, &answer)
            .map_err(|text| error(&text))?;
    }
    println!("{sequences} sequences with ballots");
    rows::print(&met.rows())
}
