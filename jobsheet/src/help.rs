//! What `--help` prints.

use crate::arguments::Command;

/// The help of the whole program, or of a command.
pub fn text(command: Option<Command>) -> &'static str {
    match command {
        None => include_str!("../help/jobsheet.txt"),
        Some(Command::Pack) => include_str!("../help/pack.txt"),
        Some(Command::Show) => include_str!("../help/show.txt"),
        Some(Command::Check) => include_str!("../help/check.txt"),
        Some(Command::Draw) => include_str!("../help/draw.txt"),
        Some(Command::Run) => include_str!("../help/run.txt"),
    }
}
