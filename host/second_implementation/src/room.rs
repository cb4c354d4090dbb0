//! The room that a sheet will need: what it comes to, before anything is added anywhere.
//!
//! Nothing is computed by a formula. The sheet is read, its entries are added to a fresh graph of greatest size, and
//! where all are accepted the graph is run until every job is finished, with the steps counted.

use crate::{
    graph::{Answer, Graph, Outcome, Refusal, Reply, Sizes, MAX_ARCS, MAX_BITS, MAX_JOBS},
    sheet::{read_sheet, Entry, ReadError},
};

/// The sizes of the greatest graph, with one worker.
pub const GREATEST: Sizes = Sizes { jobs: MAX_JOBS, arcs: MAX_ARCS, bits: MAX_BITS, workers: 1 };

/// What a sheet needs whose adds are all accepted.
#[derive(Clone, Copy, Debug, PartialEq, Eq)]
pub struct Room {
    pub jobs: u32,
    /// The lengths of all lists together.
    pub arcs: u32,
    /// The steps of a full run: all adds, then gets and finishes until every job is finished. A get that hands a job
    /// out is a step, one that does not is not counted.
    pub steps: u32,
}

/// Why there is no such room.
#[derive(Clone, Copy, Debug, PartialEq, Eq)]
pub enum NoRoom {
    /// The sheet cannot be read, whatever its earlier entries are.
    Unreadable(ReadError),
    /// The first entry, from 0, whose add is turned away.
    TurnedAway { entry: usize, refusal: Refusal },
}

/// The room of a sheet.
pub fn room(sheet: &[u8]) -> Result<Room, NoRoom> {
    let mut entries = Vec::new();
    read_sheet(sheet, &mut entries).map_err(NoRoom::Unreadable)?;
    let mut run = FullRun::new(GREATEST);
    for (number, entry) in entries.iter().enumerate() {
        run.add(entry).map_err(|refusal| NoRoom::TurnedAway { entry: number, refusal })?;
    }
    run.finish_all();
    let arcs = entries.iter().map(|entry| entry.prerequisites.count as u32).sum();
    Ok(Room { jobs: run.graph.jobs().len() as u32, arcs, steps: run.steps })
}

/// A graph of one worker, and the steps that it has made.
struct FullRun {
    graph: Graph,
    steps: u32,
}

impl FullRun {
    fn new(sizes: Sizes) -> FullRun {
        FullRun { graph: Graph::lay_out(sizes).expect("the sizes are within their limits"), steps: 0 }
    }

    fn add(&mut self, entry: &Entry) -> Answer {
        self.graph.post_add(self.graph.sizes(), 0, entry)?;
        self.run_call()
    }

    fn run_call(&mut self) -> Answer {
        loop {
            let reply = self.graph.step(self.graph.sizes(), 0)?;
            self.steps += 1;
            if reply != Reply::GoingOn {
                return Ok(reply);
            }
        }
    }

    /// Gets and finishes until no job is left.
    fn finish_all(&mut self) {
        let sizes = self.graph.sizes();
        while let Ok(Reply::HandedOut { name, .. }) = self.graph.get(sizes, 0) {
            self.steps += 1;
            let posted = self.graph.post_finish(sizes, 0, name, Outcome::Good);
            assert_eq!(posted, Ok(Reply::Posted), "a holder finishes what it holds");
            assert_eq!(self.run_call(), Ok(Reply::Ended), "a finish ends");
        }
        let handed_out = self.graph.queue().len();
        assert_eq!(handed_out, self.graph.jobs().len(), "every job is handed out");
        assert_eq!(self.graph.drained(sizes), Ok(true), "and finished");
    }
}

#[cfg(test)]
mod tests;
