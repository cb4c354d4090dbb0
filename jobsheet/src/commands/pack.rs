//! `jobsheet pack`: text or a table to bytes.

use super::{cannot, judged, Verdict};
use crate::{
    arguments::Arguments,
    input::{Source, Stop},
    judge::LARGEST,
    number::counted,
    output::Output,
    terminal::{tell, Progress},
};

/// Writes the packed sheet, if every entry can be written. What a fresh graph would refuse of it is no hindrance, as
/// the jobs that it needs may be another sheet's; but it is said.
pub(super) fn run(arguments: &Arguments, mut source: Source, progress: Progress) -> Result<Verdict, Stop> {
    let judged = judged(&mut source.sheet, &[], LARGEST, &progress)?;
    let sheet = match source.sheet.packed() {
        Some(sheet) => sheet,
        None => {
            drop(progress);
            return Ok(cannot(&source, judged, "packed"));
        }
    };
    Output::open(&arguments.out)?.write_by(progress, |out| out.write_all(&sheet))?;
    if judged.refused() > 0 {
        let refused = counted(judged.refused(), "entry");
        tell(&format!("jobsheet: packed, but a fresh graph would refuse {refused}; jobsheet check says why"));
    }
    Ok(Verdict::Good)
}
