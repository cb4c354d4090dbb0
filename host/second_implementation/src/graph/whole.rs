//! Calls run whole (docs/RULES.md, "Whole calls"): an add or a finish from its post to the answer that ends it, and a
//! sheet of adds, one after another, in one call.

use super::{refused, Answer, Graph, Outcome, Refusal, Reply, Sizes};
use crate::{
    refusal,
    sheet::{Entry, ROW_WORDS},
};

/// The entries that one call takes.
pub const MAX_ENTRIES: usize = 64;

/// What a sheet answers: why it was turned away before any entry, or how each entry's add ended.
pub type SheetAnswer = Result<Vec<Answer>, Refusal>;

impl Graph {
    /// An add, run whole.
    pub fn add(&mut self, sizes: Sizes, worker: u32, entry: &Entry) -> Answer {
        self.post_add(sizes, worker, entry)?;
        self.run(sizes, worker)
    }

    /// A finish, run whole. It has no more arcs than there are, so it ends within arcs + 1 steps.
    pub fn finish(&mut self, sizes: Sizes, worker: u32, name: u32, outcome: Outcome) -> Answer {
        self.post_finish(sizes, worker, name, outcome)?;
        self.run(sizes, worker)
    }

    /// The adds of the entries of all rows, each run whole, in order; a refused one does not stop the next.
    pub fn add_sheet(&mut self, sizes: Sizes, worker: u32, rows: &[u32]) -> SheetAnswer {
        let rows = rows.chunks_exact(ROW_WORDS);
        if !rows.remainder().is_empty() {
            return refused(refusal::SIZE);
        }
        self.idle_worker(sizes, worker)?;
        if rows.len() > MAX_ENTRIES {
            return refused(refusal::TOO_MANY_ENTRIES);
        }
        Ok(rows.map(|row| self.add(sizes, worker, &Entry::of_row(row))).collect())
    }

    fn run(&mut self, sizes: Sizes, worker: u32) -> Answer {
        loop {
            match self.step(sizes, worker)? {
                Reply::GoingOn => {}
                reply => return Ok(reply),
            }
        }
    }
}
