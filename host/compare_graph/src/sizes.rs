//! Cases of the sizes that calls bring: the words that the tables need, the totals of a graph, and its minutes.

use compare_sheets::{
    case::{differ, Case},
    shrink,
};
use second_implementation::{
    graph::Sizes,
    minutes::{Minutes, CLASSES},
    refusal,
    totals::{self, Record, TotalsError},
};
use taskgraph::raw::{self as proved, Need};

use crate::{
    layout::{self, words_needed},
    world::{minutes_to_library, to_library},
};

/// Sizes, and the jobs table of a graph that was laid out with other sizes or the same.
pub struct SizesBrought {
    pub sizes: Sizes,
    pub laid_out: Sizes,
    /// Labels and classes of the jobs made, fewer than the laid out sizes allow.
    pub jobs: Vec<[u32; 2]>,
    /// The minutes that stand in the table, right or wrong.
    pub minutes: [u32; CLASSES],
    pub jobs_len: usize,
}

impl SizesBrought {
    fn expected_need(&self) -> Need {
        if !self.sizes.within_limits() {
            return Need { number: 1, ..Need::default() };
        }
        let [jobs, arcs, buckets, queue, workers] = words_needed(self.sizes);
        Need { number: 0, jobs, arcs, buckets, queue, workers }
    }

    /// The jobs table, of as many words as are lent.
    fn table(&self) -> Vec<u32> {
        let Sizes { jobs, arcs, bits, workers } = self.laid_out;
        let mut words = vec![jobs, arcs, bits, workers, self.jobs.len() as u32];
        words.extend(self.minutes);
        for [label, class] in &self.jobs {
            words.extend([7, *label, 0, *class, 0, layout::NONE, layout::NONE, layout::NONE, 0, 0]);
        }
        words.resize(self.jobs_len, 0);
        words
    }

    fn fits(&self) -> bool {
        let long_enough = self.sizes.within_limits() && self.jobs_len >= words_needed(self.sizes)[0];
        long_enough && self.sizes == self.laid_out
    }

    fn expected_totals(&self) -> Result<totals::Totals, TotalsError> {
        if !self.fits() {
            return Err(TotalsError::Size);
        }
        if self.jobs.len() > self.sizes.jobs as usize || Minutes::of(&self.minutes).is_none() {
            return Err(TotalsError::Damaged);
        }
        let records: Vec<Record> =
            self.jobs.iter().map(|[label, class]| Record { label: *label, class: *class }).collect();
        totals::by_minutes(&records, &self.minutes)
    }

    fn expected_minutes(&self) -> Result<Minutes, u32> {
        if !self.fits() {
            return Err(refusal::SIZE);
        }
        Minutes::of(&self.minutes).ok_or(refusal::DAMAGED)
    }
}

impl Case for SizesBrought {
    fn difference(&self) -> Option<String> {
        let sizes = to_library(self.sizes);
        differ("tg_words_needed", proved::words_needed(sizes), self.expected_need()).or_else(|| {
            let expected = compare_sheets::totals::expected(self.expected_totals());
            let table = self.table();
            let minutes = proved::minutes_of_graph(sizes, &table);
            differ("tg_totals_of_graph", proved::totals_of_graph(sizes, &table), expected)
                .or_else(|| differ("tg_minutes_of_graph", minutes, minutes_to_library(self.expected_minutes())))
        })
    }

    fn smaller(&self) -> Box<dyn Iterator<Item = Self> + '_> {
        let fewer = shrink::shorter(&self.jobs, 1).map(|jobs| SizesBrought { jobs, ..*self });
        let shorter = shrink::lower_size(self.jobs_len).map(|jobs_len| SizesBrought {
            jobs_len,
            jobs: self.jobs.clone(),
            ..*self
        });
        let fixed = (self.minutes != *Minutes::FIXED.values()).then(|| SizesBrought {
            minutes: *Minutes::FIXED.values(),
            jobs: self.jobs.clone(),
            ..*self
        });
        Box::new(fewer.chain(shorter).chain(fixed))
    }

    fn show(&self) -> String {
        let SizesBrought { sizes, laid_out, jobs, minutes, jobs_len } = self;
        format!(
            "{sizes:?}, laid out with {laid_out:?}, a jobs table of {jobs_len} words, minutes {minutes:?}, labels and \
             classes {jobs:?}"
        )
    }
}
