//! The day list (`docs/RULES.md`, "The board and the day list").

use crate::{
    raw::{self, DAY_JOBS, MAX_DAY_LIST},
    Refusal,
};

/// Room for the longest output: with 10 workers and more, their number and those of the lines may have a digit more.
const ROOM: usize = MAX_DAY_LIST + 1 + DAY_JOBS;

/// What the day list prints of a sheet, with so many workers.
///
/// A sheet that cannot be read, or an entry that is refused, is said in the text: it is no error here.
///
/// # Errors
/// [`Refusal::Size`] where the number of workers is not 1 to 16.
///
/// ```
/// # use taskgraph::day_list;
/// assert_eq!(day_list(&[1, 7, 0, 0, 0], 2).unwrap(), "jobs 1 workers 2\n0 7 0\nleft 0\n");
/// assert_eq!(day_list(&[2], 2).unwrap(), "broken 0 13\n");
/// ```
pub fn day_list(sheet: &[u8], workers: u32) -> Result<String, Refusal> {
    let mut lines = vec![0; ROOM];
    let day = raw::day_list(sheet, workers, &mut lines);
    Refusal::unless_accepted(day.number, 0)?;
    lines.truncate(day.bytes);
    Ok(String::from_utf8(lines).expect("the day list is ASCII"))
}
