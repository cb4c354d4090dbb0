//! `jobsheet draw`: a picture of a sheet.

use taskgraph::Job;

use super::{drawn, judged, tell_faults, Verdict};
use crate::{
    arguments::{Arguments, To},
    input::{Source, Stop},
    judge::LARGEST,
    output::Output,
    picture,
    terminal::{Progress, Stage},
};

pub(super) fn run(
    arguments: &Arguments,
    mut source: Source,
    before: &[Job],
    progress: Progress,
) -> Result<Verdict, Stop> {
    let judged = judged(&mut source.sheet, before, LARGEST, &progress)?;
    progress.begin(Stage::Drawing);
    let drawn = drawn(&source, &judged);
    let picture = match arguments.to {
        Some(To::Dot) => picture::dot(&drawn),
        _ => picture::svg(&drawn),
    };
    Output::open(&arguments.out)?.write_by(progress, |out| out.write_all(picture.as_bytes()))?;
    tell_faults(&source, &judged.faults);
    Ok(Verdict::of(&judged.faults))
}
