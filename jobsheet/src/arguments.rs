//! The command line.

use std::ffi::{OsStr, OsString};

use taskgraph::{
    raw::{MAX_ARCS, MAX_JOBS, MAX_WORKERS},
    Sizes,
};

use crate::{
    input::{shown_name, Stop},
    judge::LARGEST,
    number::{grouped, number},
    Form,
};

/// A command.
#[derive(Clone, Copy, Debug, PartialEq, Eq)]
pub enum Command {
    /// Text or a table to bytes.
    Pack,
    /// A sheet as text.
    Show,
    /// What is wrong with a sheet, and what it comes to.
    Check,
    /// A picture of a sheet.
    Draw,
    /// The day of a sheet.
    Run,
}

impl Command {
    /// All of them, in the order of the help.
    pub const ALL: [Command; 5] = [Command::Pack, Command::Show, Command::Check, Command::Draw, Command::Run];

    /// As it is said on the command line.
    pub fn name(self) -> &'static str {
        match self {
            Command::Pack => "pack",
            Command::Show => "show",
            Command::Check => "check",
            Command::Draw => "draw",
            Command::Run => "run",
        }
    }

    /// The options that it takes beside those of all.
    fn options(self) -> &'static [&'static str] {
        match self {
            Command::Pack => &[],
            Command::Show => &["--csv", "--json"],
            Command::Check => &["--json", "--after", "--jobs", "--arcs"],
            Command::Draw => &["--dot", "--after"],
            Command::Run => &["--json", "--svg", "--after", "--workers"],
        }
    }
}

/// The form of an answer other than a command's own.
#[derive(Clone, Copy, Debug, PartialEq, Eq)]
pub enum To {
    /// A table.
    Csv,
    /// JSON.
    Json,
    /// Graphviz.
    Dot,
    /// A picture.
    Svg,
}

/// What a command is asked to do.
#[derive(Clone, Debug, PartialEq, Eq)]
pub struct Arguments {
    /// The file, or standard input.
    pub file: Option<OsString>,
    /// Sheets whose jobs are there before.
    pub after: Vec<OsString>,
    /// The form of the file, where it is said.
    pub from: Option<Form>,
    /// The form of the answer, where it is not the command's own.
    pub to: Option<To>,
    /// The file for the answer, or standard output.
    pub out: Option<OsString>,
    /// The sizes of the graph, and how many workers there are.
    pub sizes: Sizes,
}

impl Arguments {
    /// Whether standard input is read.
    pub fn reads_input(&self) -> bool {
        self.inputs() > 0
    }

    /// How many sheets are to come from standard input.
    fn inputs(&self) -> usize {
        let named = self.after.iter().chain(&self.file).filter(|file| *file == "-").count();
        named + usize::from(self.file.is_none())
    }
}

/// The workers of a day, if it is not said.
const WORKERS: u32 = 2;

/// What the command line asks for.
#[derive(Clone, Debug, PartialEq, Eq)]
pub enum Asked {
    /// The help, of a command or of all.
    Help(Option<Command>),
    /// The version.
    Version,
    /// A command.
    Do(Command, Arguments),
}

/// Reads the command line, without the program's own name.
///
/// # Errors
/// Where it is wrong, with a message.
pub fn parse(words: impl IntoIterator<Item = OsString>) -> Result<Asked, Stop> {
    let mut words = words.into_iter();
    let first = match words.next() {
        Some(word) => word,
        None => return Err(Stop("no command given; jobsheet --help lists the commands".into())),
    };
    let is = |names: [&str; 2]| names.iter().any(|name| first == *name);
    if is(["-h", "--help"]) {
        return Ok(Asked::Help(None));
    }
    if is(["-V", "--version"]) {
        return Ok(Asked::Version);
    }
    match Command::ALL.into_iter().find(|command| first == command.name()) {
        Some(command) => Reader { command, arguments: nothing_said(), files_only: false }.all(words),
        None => Err(Stop(format!("there is no command {}; jobsheet --help lists the commands", shown_name(&first)))),
    }
}

fn nothing_said() -> Arguments {
    let sizes = Sizes { workers: WORKERS, ..LARGEST };
    Arguments { file: None, after: Vec::new(), from: None, to: None, out: None, sizes }
}

struct Reader {
    command: Command,
    arguments: Arguments,
    files_only: bool,
}

impl Reader {
    fn all(mut self, mut words: impl Iterator<Item = OsString>) -> Result<Asked, Stop> {
        while let Some(word) = words.next() {
            if self.files_only || word == "-" || !word.to_string_lossy().starts_with('-') {
                self.file(word)?;
            } else if word == "--" {
                self.files_only = true;
            } else if word == "-h" || word == "--help" {
                return Ok(Asked::Help(Some(self.command)));
            } else if word == "-V" || word == "--version" {
                return Ok(Asked::Version);
            } else {
                self.option(&word, &mut words)?;
            }
        }
        if self.arguments.inputs() > 1 {
            return self.wrong("standard input can be only one sheet".into());
        }
        Ok(Asked::Do(self.command, self.arguments))
    }

    fn wrong<T>(&self, what: String) -> Result<T, Stop> {
        Err(Stop(format!("{what}; jobsheet {} --help shows the usage", self.command.name())))
    }

    fn file(&mut self, word: OsString) -> Result<(), Stop> {
        if self.arguments.file.is_some() {
            return self.wrong("give only one file".into());
        }
        self.arguments.file = Some(word);
        Ok(())
    }

    fn option(&mut self, word: &OsStr, more: &mut dyn Iterator<Item = OsString>) -> Result<(), Stop> {
        let text = word.to_string_lossy();
        let (name, joined) = match text.split_once('=') {
            Some((name, value)) if name.starts_with("--") => (name, Some(OsString::from(value))),
            _ => (&*text, None),
        };
        let own = self.command.options().contains(&name);
        match name {
            "-o" | "--output" | "--from" => {}
            _ if own => {}
            _ => return self.wrong(format!("there is no option {}", shown_name(word))),
        }
        let to = match name {
            "--csv" => To::Csv,
            "--json" => To::Json,
            "--dot" => To::Dot,
            "--svg" => To::Svg,
            _ => {
                let value = match joined.or_else(|| more.next()) {
                    Some(value) => value,
                    None => return self.wrong(format!("{name} needs a value")),
                };
                return self.value(name, value);
            }
        };
        if joined.is_some() {
            return self.wrong(format!("the option {name} takes no value"));
        }
        if self.arguments.to.replace(to).map_or(false, |before| before != to) {
            return self.wrong("choose one form of answer".into());
        }
        Ok(())
    }

    fn value(&mut self, name: &str, value: OsString) -> Result<(), Stop> {
        match name {
            "--from" => match value.to_str().and_then(Form::named) {
                Some(form) => self.arguments.from = Some(form),
                None => return self.wrong(format!("--from takes bytes, text or csv, not {}", shown_name(&value))),
            },
            "--after" => self.arguments.after.push(value),
            "--workers" => self.arguments.sizes.workers = self.number(name, &value, 1, MAX_WORKERS)?,
            "--jobs" => self.arguments.sizes.jobs = self.number(name, &value, 1, MAX_JOBS)?,
            "--arcs" => self.arguments.sizes.arcs = self.number(name, &value, 0, MAX_ARCS)?,
            _ => self.arguments.out = Some(value),
        }
        Ok(())
    }

    fn number(&self, name: &str, value: &OsStr, least: u32, most: u32) -> Result<u32, Stop> {
        match number(value.to_string_lossy().as_bytes()) {
            Ok(number) if (least..=most).contains(&number) => Ok(number),
            _ => self.wrong(format!("{name} takes {least} to {}, not {}", grouped(most as usize), shown_name(value))),
        }
    }
}
