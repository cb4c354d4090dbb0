//! `jobsheet show`: a sheet as text, as a table or as JSON.

use std::io::{self, Write};

use taskgraph::Job;

use super::{cannot, judged, Verdict};
use crate::{
    arguments::{Arguments, To},
    csv,
    input::{Source, Stop},
    json::{Document, Json},
    judge::LARGEST,
    output::Output,
    terminal::Progress,
    text,
};

/// Writes the jobs, if every entry can be read and packed.
pub(super) fn run(arguments: &Arguments, mut source: Source, progress: Progress) -> Result<Verdict, Stop> {
    let judged = judged(&mut source.sheet, &[], LARGEST, &progress)?;
    let jobs = match source.sheet.packed().and_then(|_| source.sheet.jobs()) {
        Some(jobs) => jobs,
        None => {
            drop(progress);
            return Ok(cannot(&source, judged, "shown"));
        }
    };
    Output::open(&arguments.out)?.write_by(progress, |out| match arguments.to {
        Some(To::Csv) => out.write_all(csv::write(&jobs).as_bytes()),
        Some(To::Json) => json(out, &jobs),
        _ => out.write_all(text::write(&jobs).as_bytes()),
    })?;
    Ok(Verdict::Good)
}

fn json(out: &mut dyn Write, jobs: &[Job]) -> io::Result<()> {
    let mut document = Document::new(out);
    let rows = jobs.iter().map(|job| {
        let needs = job.prerequisites.iter().copied().collect();
        Json::Object(vec![
            ("name", job.name.into()),
            ("needs", needs),
            ("class", job.class.into()),
            ("grower", job.grower.into()),
        ])
    });
    document.rows("jobs", rows)?;
    document.end()
}
