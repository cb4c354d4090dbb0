//! The board of totals (`docs/RULES.md`, "The board and the day list").

use crate::{
    raw::{self, JobRecord},
    Refusal,
};

/// The jobs under one label.
#[derive(Clone, Copy, Debug, Default, PartialEq, Eq, Hash)]
pub struct Sum {
    /// How many they are.
    pub jobs: u32,
    /// The sum of their minutes.
    pub minutes: u32,
}

/// The jobs of a graph under each label.
#[derive(Clone, Copy, Debug, Default, PartialEq, Eq, Hash)]
pub struct Totals {
    /// Jobs that nobody has taken yet.
    pub unexecuted: Sum,
    /// Jobs that a worker holds.
    pub executing: Sum,
    /// Jobs that are finished.
    pub finished: Sum,
}

impl Totals {
    pub(crate) fn of(answer: raw::Totals) -> Result<Totals, Refusal> {
        Refusal::unless_accepted(answer.number, 0)?;
        let sum = |label: usize| Sum { jobs: answer.jobs[label], minutes: answer.minutes[label] };
        Ok(Totals { unexecuted: sum(0), executing: sum(1), finished: sum(2) })
    }
}

/// The jobs and minutes of a row of records under each label, by a district's minutes, as
/// [`load_minutes`](crate::TaskGraph::load_minutes) takes them.
///
/// # Errors
/// 1 for more than 4,096 records, 17 for wrong minutes, 9 for a wrong label or class.
///
/// ```
/// # use taskgraph::{raw::JobRecord, totals_by_minutes, Refusal};
/// let district = [5, 10, 15, 20, 25, 30, 40, 50, 60, 75, 90, 120, 180, 240, 480, 1440];
/// let records = [JobRecord { label: 0, class: 1 }, JobRecord { label: 2, class: 15 }];
/// let totals = totals_by_minutes(&records, &district)?;
/// assert_eq!((totals.unexecuted.minutes, totals.finished.minutes), (10, 1440));
/// assert_eq!(totals_by_minutes(&records, &district[1..]), Err(Refusal::Minutes));
/// # Ok::<(), Refusal>(())
/// ```
pub fn totals_by_minutes(records: &[JobRecord], minutes: &[u32]) -> Result<Totals, Refusal> {
    Totals::of(raw::totals_by_minutes(records, minutes))
}
