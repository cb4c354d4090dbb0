//! `jobsheet check`: what is wrong with a sheet, and what it comes to.

use std::io::{self, Write};

use taskgraph::{Job, Refusal, Room, Sizes};

use super::{judged, Verdict};
use crate::{
    arguments::{Arguments, To},
    fault::Fault,
    input::{Source, Stop},
    json::{Document, Json},
    number::{counted, grouped},
    output::Output,
    summary::{self, Chain, Summary},
    terminal::{painted, Paint, Progress, Stream},
    Form, Judged,
};

/// How many are shown at each end of a long list.
const SHOWN: usize = 6;

pub(super) fn run(
    arguments: &Arguments,
    mut source: Source,
    before: &[Job],
    progress: Progress,
) -> Result<Verdict, Stop> {
    let sizes = Sizes { workers: 1, ..arguments.sizes };
    let judged = judged(&mut source.sheet, before, sizes, &progress)?;
    let packs = source.sheet.packed().is_some();
    let room = summary::room(before, &source.sheet);
    let alone = arguments.after.is_empty();
    let answer = Answer { summary: Summary::of(&judged), packs, room, alone, source, judged };
    let colours = arguments.out.is_none() && Stream::Output.has_colours();
    Output::open(&arguments.out)?.write_by(progress, |out| match arguments.to {
        Some(To::Json) => answer.json(out),
        _ => answer.text(out, colours),
    })?;
    Ok(Verdict::of(&answer.judged.faults))
}

struct Answer {
    source: Source,
    judged: Judged,
    summary: Summary,
    /// Whether a host can be given the sheet at all.
    packs: bool,
    /// What a host needs for it and for the sheets before it, where every entry is accepted, given the room.
    room: Option<Room>,
    /// Whether there is no sheet before it.
    alone: bool,
}

impl Answer {
    fn text(&self, out: &mut dyn Write, colours: bool) -> io::Result<()> {
        for fault in &self.judged.faults {
            let place = painted(&fault.place(), Paint::Red, colours);
            writeln!(out, "{place}: {} {}", fault.kind.what(), fault.kind.advice())?;
        }
        let paint = if self.judged.faults.is_empty() { Paint::Green } else { Paint::Bold };
        writeln!(out, "{}", painted(&self.verdict(), paint, colours))?;
        self.sums(out)
    }

    /// The line that says it all.
    fn verdict(&self) -> String {
        let Source { name, sheet } = &self.source;
        let entries = counted(sheet.entries.len(), "entry");
        let faults = counted(self.judged.faults.len(), "fault");
        let start = format!("{name} ({}): {entries}", sheet.form.name());
        if self.judged.faults.is_empty() {
            return format!("{start}, all accepted");
        }
        let end = match sheet.form {
            _ if self.packs && self.judged.own().is_empty() => "a host adds none of it",
            _ if self.packs => "a host adds the others",
            Form::Bytes => "it is broken, so a host adds none of it",
            Form::Text | Form::Csv => "it cannot be packed",
        };
        format!("{start}, {} refused; {faults}; {end}", grouped(self.judged.refused()))
    }

    fn sums(&self, out: &mut dyn Write) -> io::Result<()> {
        let Summary { jobs, arcs, classes, minutes, longest, slowest, waits } = &self.summary;
        let minutes_of = |minutes: u32| counted(minutes as usize, "minute");
        if !self.packs {
            writeln!(out, "  totals of what can be read:")?;
        }
        let sums = [(*jobs, "job"), (*arcs, "arc"), (classes.len() as u32, "class"), (*minutes, "minute")];
        writeln!(out, "  {}", sums.map(|(sum, thing)| counted(sum as usize, thing)).join(", "))?;
        if let Some(Room { jobs, arcs, steps }) = self.room {
            let [jobs, arcs, steps] =
                [(jobs, "job"), (arcs, "arc"), (steps, "step")].map(|(sum, thing)| counted(sum as usize, thing));
            let whose = if self.alone { "room" } else { "room with the sheets before it" };
            writeln!(out, "  {whose}: {jobs}, {arcs}; a full run takes {steps}")?;
        }
        for (class, sum) in classes {
            writeln!(out, "  class {class}: {}, {}", counted(sum.jobs, "job"), minutes_of(sum.minutes))?;
        }
        let mut chains = vec![("longest chain", longest), ("chain of most minutes", slowest)];
        chains.dedup_by_key(|(_, chain)| *chain);
        for (name, Chain { jobs, minutes }) in chains.into_iter().filter(|(_, chain)| !chain.jobs.is_empty()) {
            let length = counted(jobs.len(), "job");
            writeln!(out, "  {name}: {length}, {}: {}", minutes_of(*minutes), listed(jobs, ", "))?;
        }
        for ((grower, other), jobs) in waits {
            let [who, whom] = [grower, other].map(|number| grower_name(*number));
            let each = jobs.iter().map(|(job, names)| format!("{job} for {}", listed(names, " ")));
            let each: Vec<String> = each.collect();
            writeln!(out, "  {who} waits for {whom}, {}: {}", counted(jobs.len(), "job"), listed(&each, "; "))?;
        }
        Ok(())
    }

    fn json(&self, out: &mut dyn Write) -> io::Result<()> {
        let Summary { jobs, arcs, classes, minutes, longest, slowest, waits } = &self.summary;
        let Source { name, sheet } = &self.source;
        let mut document = Document::new(out);
        document.member("file", name.as_str())?;
        document.member("form", sheet.form.name())?;
        document.member("good", self.judged.faults.is_empty())?;
        document.member("packs", self.packs)?;
        document.member("entries", sheet.entries.len())?;
        document.member("refused", self.judged.refused())?;
        document.member("numbers", self.judged.answers.iter().map(number_of).collect::<Json>())?;
        document.rows("faults", self.judged.faults.iter().map(fault_row))?;
        document.member("jobs", *jobs)?;
        document.member("arcs", *arcs)?;
        document.member("minutes", *minutes)?;
        document.member("room", self.room.map(room_row))?;
        document.rows(
            "classes",
            classes.iter().map(|(class, sum)| {
                let sum = [("class", (*class).into()), ("jobs", sum.jobs.into()), ("minutes", sum.minutes.into())];
                Json::Object(sum.into())
            }),
        )?;
        for (name, Chain { jobs, minutes }) in [("longest", longest), ("slowest", slowest)] {
            let chain = [("jobs", jobs.iter().copied().collect()), ("minutes", (*minutes).into())];
            document.member(name, Json::Object(chain.into()))?;
        }
        document.rows(
            "waits",
            waits.iter().map(|((grower, other), jobs)| {
                let jobs = jobs.iter().map(|(job, names)| {
                    Json::Object(vec![("job", (*job).into()), ("for", names.iter().copied().collect())])
                });
                let pair = [("grower", (*grower).into()), ("for", (*other).into()), ("jobs", jobs.collect())];
                Json::Object(pair.into())
            }),
        )?;
        document.end()
    }
}

/// The number of an add's answer, 0 if it was accepted; nothing of an entry that cannot be read.
fn number_of(answer: &Option<Result<(), Refusal>>) -> Option<u32> {
    answer.map(|ended| ended.map_or_else(Refusal::number, |()| 0))
}

fn room_row(room: Room) -> Json {
    let Room { jobs, arcs, steps } = room;
    Json::Object(vec![("jobs", jobs.into()), ("arcs", arcs.into()), ("steps", steps.into())])
}

fn fault_row(fault: &Fault) -> Json {
    Json::Object(vec![
        ("line", fault.line.into()),
        ("entry", fault.entry.into()),
        ("byte", fault.at.into()),
        ("job", fault.job.into()),
        ("number", fault.kind.number().into()),
        ("what", fault.kind.what().as_str().into()),
        ("do", fault.kind.advice().as_str().into()),
    ])
}

fn grower_name(grower: u32) -> String {
    if grower == 0 {
        "the network".into()
    } else {
        format!("grower {grower}")
    }
}

/// The first and the last of many, or all.
fn listed(values: &[impl ToString], between: &str) -> String {
    let texts = |values: &[_]| values.iter().map(ToString::to_string).collect::<Vec<String>>().join(between);
    if values.len() <= 2 * SHOWN {
        return texts(values);
    }
    let (first, last) = (&values[..SHOWN], &values[values.len() - SHOWN..]);
    [&texts(first), "...", &texts(last)].join(between)
}
