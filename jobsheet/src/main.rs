//! The program `jobsheet`.

use std::{env, panic, process::ExitCode};

use jobsheet::{
    arguments::{parse, Asked},
    commands::{self, Verdict},
    help,
    input::Stop,
    output::Output,
    streams,
    terminal::{tell, Progress},
};

/// Nothing is wrong with the sheet.
const GOOD: u8 = 0;
/// Something is wrong with it.
const FAULT: u8 = 1;
/// There is no answer: wrong usage, a file that cannot be read, an answer that cannot be written.
const NO_ANSWER: u8 = 2;

fn main() -> ExitCode {
    panic::set_hook(Box::new(|found| {
        tell(&format!("jobsheet: a mistake of the program itself: {found}. Please report it, with the sheet."));
        std::process::exit(NO_ANSWER.into());
    }));
    let answer = parse(env::args_os().skip(1)).and_then(|asked| match asked {
        Asked::Help(command) => print(help::text(command)),
        Asked::Version => print(&format!("jobsheet {}\n", taskgraph::version())),
        Asked::Do(command, arguments) => commands::run(command, &arguments),
    });
    ExitCode::from(match answer {
        Ok(Verdict::Good) => GOOD,
        Ok(Verdict::Fault) => FAULT,
        Err(Stop(why)) => {
            tell(&format!("jobsheet: {why}"));
            NO_ANSWER
        }
    })
}

fn print(text: &str) -> Result<Verdict, Stop> {
    let output = Output::open(&None)?;
    output.write_by(Progress::silent(), |out| out.write_all(text.as_bytes())).map(|()| Verdict::Good)
}

/// Runs before `main`.
#[used]
#[cfg_attr(target_os = "linux", link_section = ".init_array")]
static LOOK: extern "C" fn() = streams::look;
