//! The small parts of whole calls, always inlined, as they are in the proved library. Those of the single calls are left
//! to the compiler.

use compare_graph::layout::{job, ARCS_HEADER, ARC_WORDS, JOBS_HEADER, JOB_WORDS, NONE};
use taskgraph::raw::Entry;

use super::{Graph, Outcome, DAMAGED, MAX_CLASS, MAX_GROWER, MAX_NAMES};

/// The list of an entry, or number 5.
#[inline(always)]
pub fn judged_list(entry: &Entry) -> Outcome<&[u32]> {
    if entry.class > MAX_CLASS || entry.grower > MAX_GROWER || entry.count > MAX_NAMES {
        return Err((5, 0));
    }
    let list = &entry.names[..entry.count as usize];
    if list.iter().enumerate().all(|(place, name)| *name != entry.name && !list[..place].contains(name)) {
        Ok(list)
    } else {
        Err((5, 0))
    }
}

impl<const INDEXED: bool> Graph<'_, INDEXED> {
    #[inline(always)]
    pub fn job_words(&mut self, number: u32) -> &mut [u32] {
        let at = JOBS_HEADER + JOB_WORDS * number as usize;
        &mut self.jobs[at..at + JOB_WORDS]
    }

    #[inline(always)]
    pub fn job_read(&self, number: u32) -> &[u32] {
        let at = JOBS_HEADER + JOB_WORDS * number as usize;
        &self.jobs[at..at + JOB_WORDS]
    }

    #[inline(always)]
    pub fn arc_words(&mut self, number: u32) -> &mut [u32] {
        let at = ARCS_HEADER + ARC_WORDS * number as usize;
        &mut self.arcs[at..at + ARC_WORDS]
    }

    /// None, or in use.
    #[inline(always)]
    pub fn arc_is_none_or_used(&self, place: u32) -> bool {
        place == NONE || place < self.arcs[0] && place < self.sizes.arcs
    }

    /// The job of a name, or none; a walk that strays or passes more jobs than were made is damage.
    #[inline(always)]
    pub fn search(&self, name: u32) -> Outcome<u32> {
        let made = self.jobs[4];
        let mut place = self.buckets[self.bucket(name)];
        for _ in 0..made {
            if place == NONE {
                return Ok(NONE);
            }
            if place >= made {
                return Err(DAMAGED);
            }
            let words = self.job_read(place);
            if words[job::NAME] == name {
                return Ok(place);
            }
            place = words[job::NEXT];
        }
        if place == NONE {
            Ok(NONE)
        } else {
            Err(DAMAGED)
        }
    }

    /// Appends an arc to the list of a prerequisite.
    #[inline(always)]
    pub fn append_arc(&mut self, prerequisite: u32, last: u32, arc: u32, dependent: u32) {
        self.arc_words(arc).copy_from_slice(&[dependent, NONE]);
        if last == NONE {
            self.job_words(prerequisite)[job::FIRST] = arc;
        } else {
            self.arc_words(last)[1] = arc;
        }
        self.job_words(prerequisite)[job::LAST] = arc;
    }
}
