//! Files, read within bounds.

use std::{
    ffi::{OsStr, OsString},
    fs::File,
    io::{self, ErrorKind, Read},
    path::Path,
};

use taskgraph::raw::{MAX_ARCS, MAX_JOBS};

use crate::{
    number::{grouped, plain},
    read,
    streams::{descriptor, is_usable},
    terminal::{tell, Progress, Stage, Stream},
    Form, Sheet,
};

/// The longest file that is read, in bytes: twice the longest plain text of which the largest graph takes every entry.
pub const MOST_BYTES: usize = 1 << 20;

/// How much is read at a time.
const PART: usize = 1 << 16;

/// Why there is no answer. The program says so and ends with status 2.
#[derive(Clone, Debug, PartialEq, Eq)]
pub struct Stop(pub String);

/// A file that was read.
pub struct Source {
    /// Its name, as it may be shown.
    pub name: String,
    /// What stands in it.
    pub sheet: Sheet,
}

/// A file's name as it may be shown: a stranger may have chosen it.
pub fn shown_name(file: &OsStr) -> String {
    match plain(file.to_string_lossy().as_bytes(), 200) {
        name if name.is_empty() => "''".into(),
        name => name,
    }
}

/// Reads a file, or standard input, in a form that is said or that its content shows. Where it shows two, `otherwise`
/// is what helps.
pub fn take(file: &Option<OsString>, from: Option<Form>, otherwise: &str, progress: &Progress) -> Result<Source, Stop> {
    progress.begin(Stage::Reading);
    let (name, content) = match file {
        Some(file) if file != "-" => {
            let name = shown_name(file);
            let content = open(file, &name).and_then(|opened| contents(opened, &name, progress))?;
            (name, content)
        }
        _ => {
            if !is_usable(0) {
                return Err(Stop("standard input is not open for reading".into()));
            }
            if Stream::Input.is_terminal() {
                tell("jobsheet: reading the sheet from the terminal; Ctrl-D ends it");
                progress.begin(Stage::Typing);
            }
            let name = "standard input".to_string();
            let content = contents(io::stdin().lock(), &name, progress)?;
            (name, content)
        }
    };
    let both = || Stop(format!("{name} can be read as bytes and as text; {otherwise}"));
    let form = from.or_else(|| Form::of(&content)).ok_or_else(both)?;
    Ok(Source { name, sheet: read(&content, form) })
}

fn open(file: &OsStr, name: &str) -> Result<File, Stop> {
    if descriptor(Path::new(file)).map_or(false, |stream| stream == 0 && !is_usable(stream)) {
        return Err(Stop(format!("{name} is not open for reading")));
    }
    let opened = File::open(file).map_err(|error| match error.kind() {
        ErrorKind::NotFound => Stop(format!("there is no file {name}")),
        ErrorKind::PermissionDenied => Stop(format!("{name} may not be read")),
        _ => cannot(name, &error),
    })?;
    match opened.metadata() {
        Ok(found) if found.is_dir() => Err(Stop(format!("{name} is a folder"))),
        _ => Ok(opened),
    }
}

fn cannot(name: &str, error: &io::Error) -> Stop {
    Stop(format!("{name} cannot be read: {error}"))
}

/// All of a file, if it is not too long. Of one that is, little more than that is read. The first read that gives
/// nothing ends it: a terminal would wait for another.
fn contents(mut from: impl Read, name: &str, progress: &Progress) -> Result<Vec<u8>, Stop> {
    let (mut content, mut part) = (Vec::new(), vec![0; PART]);
    loop {
        match from.read(&mut part) {
            Ok(0) => return Ok(content),
            Ok(length) => content.extend_from_slice(&part[..length]),
            Err(error) if error.kind() == ErrorKind::Interrupted => {}
            Err(error) => return Err(cannot(name, &error)),
        }
        progress.at(content.len());
        if content.len() > MOST_BYTES {
            return Err(too_long(name));
        }
    }
}

/// The longest packed sheet of which every entry can be accepted: each job with a map byte, a name, a count, a class
/// and a grower, and the names of all lists; but the first job can need nothing, and has no count.
const LONGEST_ACCEPTED: u32 = 9 * MAX_JOBS + 4 * MAX_ARCS - 1;

fn too_long(name: &str) -> Stop {
    let [most, longest] = [MOST_BYTES, LONGEST_ACCEPTED as usize].map(grouped);
    Stop(format!(
        "{name} has more than {most} bytes, so it is not read; the largest graph takes a packed sheet of at most \
         {longest}"
    ))
}
