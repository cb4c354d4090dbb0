//! What each command does.

mod check;
mod day;
mod draw;
mod pack;
mod show;

use std::{collections::HashMap, path::Path};

use taskgraph::{Job, Sizes};

use crate::{
    arguments::{Arguments, Command},
    fault::Fault,
    input::{self, Source, Stop},
    judge,
    number::counted,
    picture::{Drawn, Refused, REFUSED},
    streams::{identity, identity_of_input},
    terminal::{painted, tell, Paint, Progress, Stage, Stream},
    Judged, Sheet,
};

/// What a command found.
#[derive(Clone, Copy, Debug, PartialEq, Eq)]
pub enum Verdict {
    /// Nothing is wrong with the sheet.
    Good,
    /// Something is wrong with it.
    Fault,
}

impl Verdict {
    fn of(faults: &[Fault]) -> Verdict {
        if faults.is_empty() {
            Verdict::Good
        } else {
            Verdict::Fault
        }
    }
}

/// Does a command.
///
/// # Errors
/// Where there is no answer.
pub fn run(command: Command, arguments: &Arguments) -> Result<Verdict, Stop> {
    if takes_a_sheets_place(arguments) {
        return Err(Stop("the answer would overwrite a sheet that is read".into()));
    }
    if command == Command::Pack && arguments.out.is_none() && Stream::Output.is_terminal() {
        return Err(Stop("a packed sheet is not for a terminal; use -o FILE or a pipe".into()));
    }
    let progress = Progress::shown();
    let before = before(arguments, &progress)?;
    let say = "use --from bytes or --from text";
    let source = input::take(&arguments.file, arguments.from, say, &progress)?;
    match command {
        Command::Pack => pack::run(arguments, source, progress),
        Command::Show => show::run(arguments, source, progress),
        Command::Check => check::run(arguments, source, &before, progress),
        Command::Draw => draw::run(arguments, source, &before, progress),
        Command::Run => day::run(arguments, source, &before, progress),
    }
}

/// Whether the file for the answer is one of those that are read.
fn takes_a_sheets_place(arguments: &Arguments) -> bool {
    let replaced = arguments.out.as_ref().and_then(|out| identity(Path::new(out)));
    let read = arguments.after.iter().chain(&arguments.file).map(|file| identity(Path::new(file)));
    let input = arguments.reads_input().then(identity_of_input);
    replaced.is_some() && read.chain(input).any(|file| file == replaced)
}

/// The jobs that are there before, of sheets that can be packed.
fn before(arguments: &Arguments, progress: &Progress) -> Result<Vec<Job>, Stop> {
    let mut jobs = Vec::new();
    for file in &arguments.after {
        let Source { name, sheet } = input::take(&Some(file.clone()), None, "pack it first", progress)?;
        let more = sheet.packed().and_then(|_| sheet.jobs());
        jobs.extend(more.ok_or_else(|| Stop(format!("{name} is broken; jobsheet check says where")))?);
    }
    Ok(jobs)
}

/// The sheet judged by a graph of these sizes; the command line has seen to it that they are within their limits.
fn judged(sheet: &mut Sheet, before: &[Job], sizes: Sizes, progress: &Progress) -> Result<Judged, Stop> {
    progress.begin(Stage::Judging);
    judge(sheet, before, sizes, progress).map_err(|refusal| Stop(format!("no graph can be made: {refusal}")))
}

/// Tells faults beside an answer that is something else.
fn tell_faults(source: &Source, faults: &[Fault]) {
    let colours = Stream::Error.has_colours();
    for fault in faults {
        let place = painted(&fault.place(), Paint::Red, colours);
        tell(&format!("{}: {place}: {} {}", source.name, fault.kind.what(), fault.kind.advice()));
    }
}

/// Tells what hinders the packing of a sheet, without which something cannot be done.
fn cannot(source: &Source, mut judged: Judged, done: &str) -> Verdict {
    judged.faults.retain(|fault| fault.kind.hinders_packing());
    tell_faults(source, &judged.faults);
    tell(&format!("jobsheet: {} cannot be {done}: {}", source.name, counted(judged.faults.len(), "fault")));
    Verdict::Fault
}

/// What is drawn of a judged sheet. Of the refused entries that are drawn, the first fault is told.
fn drawn(source: &Source, judged: &Judged) -> Drawn {
    let entries = source.sheet.entries.iter().zip(&judged.answers).enumerate();
    let refused = entries.filter(|(_, (_, answer))| **answer != Some(Ok(())));
    let refused = refused.map(|(number, (entry, _))| Refused { entry: number, name: entry.name, why: String::new() });
    let mut refused: Vec<Refused> = refused.collect();
    let told: HashMap<usize, usize> =
        refused.iter().take(REFUSED).enumerate().map(|(place, it)| (it.entry, place)).collect();
    for fault in judged.faults.iter().rev() {
        if let Some(place) = fault.entry.and_then(|entry| told.get(&entry)) {
            refused[*place].why = fault.kind.what();
        }
    }
    Drawn { title: source.name.clone(), nodes: judged.nodes.clone(), refused }
}
