//! Puts the commands of standard input to one controller and prints a line for each.

use reference::command::{self, Command};
use reference::controller::Controller;
use reference::text::controller_line;
use std::io::{self, BufWriter, Read, Write};

fn main() -> io::Result<()> {
    let mut commands = Vec::new();
    io::stdin().lock().read_to_end(&mut commands)?;
    let mut output = BufWriter::new(io::stdout().lock());
    let mut controller: Option<Controller> = None;
    for (index, bytes) in commands.chunks(command::LENGTH).enumerate() {
        let error = |text| io::Error::other(format!("command {index}: {text}"));
        let command = Command::read(bytes).ok_or_else(|| error("not of a listed form"))?;
        if let Command::Fresh {
            group, id, order, ..
        } = command
        {
            if !group.in_range() || !group.has(id) {
                return Err(error("n, f or controller out of range"));
            }
            controller = Some(Controller::new(group, id, order));
        }
        let controller = controller
            .as_mut()
            .ok_or_else(|| error("no controller yet"))?;
        let (answer, saved) = command.call(controller);
        writeln!(output, "{}", controller_line(controller, &answer, saved))?;
    }
    output.flush()
}
