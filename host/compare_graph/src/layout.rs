//! The layout of the tables as `include/taskgraph.h` documents it.

use second_implementation::{graph::Sizes, minutes::CLASSES};

/// "None" as a place.
pub const NONE: u32 = u32::MAX;

/// Words before the first record of a table.
pub const JOBS_HEADER: usize = MINUTES + CLASSES;
pub const ARCS_HEADER: usize = 1;
pub const QUEUE_HEADER: usize = 2;

/// Words per record.
pub const JOB_WORDS: usize = 10;
pub const ARC_WORDS: usize = 2;
pub const QUEUE_WORDS: usize = 3;
pub const WORKER_WORDS: usize = 43;

/// The counters: jobs made, arcs reserved, jobs taken from and put in the queue.
pub const MADE: usize = 4;
pub const RESERVED: usize = 0;
pub const TAKEN: usize = 0;
pub const PUT: usize = 1;

/// Where the minutes of class 0 stand among the jobs; those of the other classes follow.
pub const MINUTES: usize = 5;

/// The fields of a job.
pub mod job {
    pub const NAME: usize = 0;
    pub const LABEL: usize = 1;
    pub const COUNT: usize = 2;
    pub const CLASS: usize = 3;
    pub const GROWER: usize = 4;
    pub const FIRST: usize = 5;
    pub const LAST: usize = 6;
    pub const NEXT: usize = 7;
    pub const OUTCOME: usize = 8;
    pub const MARK: usize = 9;
}

/// Where the next arc stands in an arc.
pub const ARC_NEXT: usize = 1;

/// The fields of a worker.
pub mod worker {
    pub const PHASE: usize = 0;
    pub const HELD: usize = 1;
    pub const NAME: usize = 2;
    pub const COUNT: usize = 3;
    pub const CLASS: usize = 4;
    pub const GROWER: usize = 5;
    pub const TALLY: usize = 6;
    pub const PLACE: usize = 7;
    pub const JOB: usize = 8;
    pub const ARC: usize = 9;
    pub const NOTE: usize = 10;
    pub const NAMES: usize = 11;
}

/// The phases of a worker.
pub mod phase {
    pub const IDLE: u32 = 0;
    pub const LOOKING_UP: u32 = 1;
    pub const LINKING: u32 = 2;
    pub const MARKING: u32 = 3;
    pub const NOTIFYING: u32 = 4;
}

/// The words that each table needs.
pub fn words_needed(sizes: Sizes) -> [usize; 5] {
    [
        JOBS_HEADER + JOB_WORDS * sizes.jobs as usize,
        ARCS_HEADER + ARC_WORDS * sizes.arcs as usize,
        1 << sizes.bits,
        QUEUE_HEADER + QUEUE_WORDS * sizes.jobs as usize,
        WORKER_WORDS * sizes.workers as usize,
    ]
}

/// The minutes of all classes that stand in a jobs table.
pub fn stored_minutes(jobs: &[u32]) -> &[u32] {
    &jobs[MINUTES..MINUTES + CLASSES]
}

/// Whether these lengths suffice for sizes within their limits.
pub fn suffice(lens: [usize; 5], sizes: Sizes) -> bool {
    lens.iter().zip(words_needed(sizes)).all(|(len, need)| *len >= need)
}

/// Where a job's record starts.
pub fn job_at(number: usize) -> usize {
    JOBS_HEADER + JOB_WORDS * number
}

/// Where an arc's record starts.
pub fn arc_at(number: usize) -> usize {
    ARCS_HEADER + ARC_WORDS * number
}

/// Where the cell of a place of the queue stands.
pub fn cell_at(place: usize) -> usize {
    QUEUE_HEADER + QUEUE_WORDS * place
}

/// Where a slot of the index stands.
pub fn slot_at(slot: usize) -> usize {
    QUEUE_HEADER + QUEUE_WORDS * slot + 1
}

/// Where the position of a place of the queue stands: the slot that holds the place.
pub fn position_at(place: usize) -> usize {
    QUEUE_HEADER + QUEUE_WORDS * place + 2
}

/// Where a worker's record starts.
pub fn worker_at(number: usize) -> usize {
    WORKER_WORDS * number
}

/// The words of an idle worker.
pub fn idle_worker(held: u32) -> [u32; WORKER_WORDS] {
    let mut words = [0; WORKER_WORDS];
    words[worker::HELD] = held;
    words[worker::JOB] = NONE;
    words[worker::ARC] = NONE;
    words
}
