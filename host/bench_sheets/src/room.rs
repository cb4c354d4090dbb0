//! The room of a sheet by the library, beside the same in unproved Rust, beside reading the sheet alone, and beside what
//! a host would do without it: lay out a fresh graph of greatest size, read the sheet and add it.

use taskgraph::raw::{self, Sizes, Tables, ENTRY_WORDS, MAX_ARCS, MAX_BITS, MAX_ENTRIES, MAX_JOBS};

use crate::{
    sheets::{Sample, Workload},
    unproved, Pass,
};

/// What the library's call is held to.
pub const OTHERS: [&str; 3] = ["unproved", "reading", "adding"];

const GREATEST: Sizes = Sizes { jobs: MAX_JOBS, arcs: MAX_ARCS, bits: MAX_BITS, workers: 1 };

pub fn with_passes<T>(other: &str, workload: &Workload, measure: impl FnOnce(Pass, Pass) -> T) -> T {
    let samples = &workload.samples;
    for sample in samples {
        let room = raw::room_of_sheet(&sample.sheet);
        assert_eq!((room.number, room.jobs as usize), (0, sample.entries.len()), "the sheet fits");
        assert_eq!(room, unproved::room_of_sheet(&sample.sheet), "both tell the same");
    }
    let mut rows = vec![0; samples.iter().map(|sample| sample.rows.len()).max().unwrap_or(0)];
    let mut graph = Fresh::new();
    let mut library = || samples.iter().for_each(|sample| assert_eq!(raw::room_of_sheet(&sample.sheet).number, 0));
    let mut unproved =
        || samples.iter().for_each(|sample| assert_eq!(unproved::room_of_sheet(&sample.sheet).number, 0));
    match other {
        "unproved" => measure(&mut library, &mut unproved),
        "reading" => measure(&mut library, &mut || {
            for sample in samples {
                read(sample, &mut rows);
            }
        }),
        _ => measure(&mut library, &mut || {
            for sample in samples {
                let words = read(sample, &mut rows);
                graph.add(&rows[..words]);
            }
        }),
    }
}

/// Reads a sheet into rows, and tells how many words they are.
fn read(sample: &Sample, rows: &mut [u32]) -> usize {
    let read = raw::read_sheet(&sample.sheet, rows);
    assert_eq!(read.number, 0);
    read.entries * ENTRY_WORDS
}

/// The tables of a graph of greatest size.
struct Fresh {
    tables: [Vec<u32>; 5],
}

impl Fresh {
    fn new() -> Fresh {
        let need = raw::words_needed(GREATEST);
        Fresh { tables: [need.jobs, need.arcs, need.buckets, need.queue, need.workers].map(|words| vec![0; words]) }
    }

    /// Lays it out and adds all rows, as many in one call as it takes.
    fn add(&mut self, rows: &[u32]) {
        let [jobs, arcs, buckets, queue, workers] = &mut self.tables;
        let mut tables = Tables { jobs, arcs, buckets, queue, workers };
        raw::lay_out(GREATEST, &mut tables);
        for rows in rows.chunks(MAX_ENTRIES * ENTRY_WORDS) {
            let added = raw::add_sheet(GREATEST, &mut tables, 0, rows);
            assert_eq!((added.number, added.numbers), (0, [0; MAX_ENTRIES]));
        }
    }
}
