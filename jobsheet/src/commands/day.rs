//! `jobsheet run`: the day of a sheet, by the proved day list.

use std::{
    collections::HashMap,
    io::{self, Write},
};

use taskgraph::{
    raw::{DAY_ARCS, DAY_BITS, DAY_JOBS, MAX_DAY_SHEET},
    write_sheet, Job, Sizes,
};

use super::{cannot, drawn, judged, tell_faults, Verdict};
use crate::{
    arguments::{Arguments, To},
    day::{Day, Worked},
    input::{Source, Stop},
    json::{Document, Json},
    number::{counted, grouped},
    output::Output,
    picture::{self, Drawn, Rounds},
    terminal::{painted, tell, Paint, Progress, Stage, Stream},
};

/// The sizes of the day list's graph; the adds are one worker's.
const SIZES: Sizes = Sizes { jobs: DAY_JOBS as u32, arcs: DAY_ARCS, bits: DAY_BITS, workers: 1 };

pub(super) fn run(
    arguments: &Arguments,
    mut source: Source,
    before: &[Job],
    progress: Progress,
) -> Result<Verdict, Stop> {
    let judged = judged(&mut source.sheet, before, SIZES, &progress)?;
    progress.begin(Stage::Drawing);
    let sheet = match packed(&source, before) {
        Some(sheet) => sheet,
        None => {
            drop(progress);
            return Ok(cannot(&source, judged, "run"));
        }
    };
    if sheet.len() > MAX_DAY_SHEET {
        drop(progress);
        let [has, most] = [sheet.len(), MAX_DAY_SHEET].map(grouped);
        let with = if before.is_empty() { "" } else { ", with the sheets before it," };
        tell(&format!("jobsheet: {}{with} has {has} bytes when packed; the day list takes {most}", source.name));
        return Ok(Verdict::Fault);
    }
    let day = Day::of(&sheet, before.len(), arguments.sizes.workers);
    let picture = (arguments.to == Some(To::Svg)).then(|| picture_of(&day, drawn(&source, &judged)));
    let colours = arguments.out.is_none() && Stream::Output.has_colours();
    Output::open(&arguments.out)?.write_by(progress, |out| match picture {
        Some(picture) => out.write_all(picture.as_bytes()),
        None if arguments.to == Some(To::Json) => json(out, &source.name, &day),
        None => table(out, &day, colours),
    })?;
    tell_faults(&source, &judged.faults);
    Ok(Verdict::of(&judged.faults))
}

/// The sheet's bytes, with those of the jobs that are there before it in front.
fn packed(source: &Source, before: &[Job]) -> Option<Vec<u8>> {
    let mut sheet = write_sheet(before).ok()?;
    sheet.extend(source.sheet.packed()?);
    Some(sheet)
}

fn picture_of(day: &Day, drawn: Drawn) -> String {
    let places = drawn.nodes.iter().enumerate().map(|(place, node)| (node.name, place)).collect();
    picture::day(&drawn, &rounds_of(day, &places), day.workers)
}

/// The rounds by the places of the jobs among those that entered.
fn rounds_of(day: &Day, places: &HashMap<u32, usize>) -> Rounds {
    let place = |worked: &Worked| places.get(&worked.name).map(|place| (worked.worker, *place));
    day.rounds.iter().map(|round| round.iter().filter_map(place).collect()).collect()
}

fn table(out: &mut dyn Write, day: &Day, colours: bool) -> io::Result<()> {
    let counts = [(day.jobs, "job"), (day.workers as usize, "worker"), (day.rounds.len(), "round")];
    let counts = counts.map(|(count, thing)| counted(count, thing)).join(", ");
    let refused = match day.refused.len() {
        0 => String::new(),
        refused => format!("; {} refused", counted(refused, "entry")),
    };
    writeln!(out, "{counts}, {} left{refused}", day.left)?;
    let heads: Vec<String> = (0..day.workers).map(|worker| format!("worker {worker}")).collect();
    let longest = day.rounds.iter().flatten().map(|worked| worked.name.to_string().len()).max().unwrap_or(0);
    let width = heads.iter().map(String::len).max().unwrap_or(0).max(longest);
    let row = |first: &str, cells: &[String]| {
        cells.iter().fold(format!("{first:>5}"), |line, cell| line + &format!("  {cell:>width$}"))
    };
    writeln!(out, "{}", painted(&row("round", &heads), Paint::Bold, colours))?;
    for (number, round) in day.rounds.iter().enumerate() {
        let mut cells = vec!["-".to_string(); heads.len()];
        round.iter().for_each(|worked| cells[worked.worker as usize] = worked.name.to_string());
        writeln!(out, "{}", row(&number.to_string(), &cells))?;
    }
    Ok(())
}

fn json(out: &mut dyn Write, name: &str, day: &Day) -> io::Result<()> {
    let mut document = Document::new(out);
    document.member("file", name)?;
    document.member("jobs", day.jobs)?;
    document.member("workers", day.workers)?;
    document.rows(
        "rounds",
        day.rounds.iter().map(|round| {
            let worked =
                |worked: &Worked| Json::Object(vec![("worker", worked.worker.into()), ("job", worked.name.into())]);
            round.iter().map(worked).collect()
        }),
    )?;
    document.member("left", day.left)?;
    document.rows(
        "refused",
        day.refused
            .iter()
            .map(|(entry, number)| Json::Object(vec![("entry", (*entry).into()), ("number", (*number).into())])),
    )?;
    document.end()
}
