//! The declarations of `include/taskgraph.h`, which says what each function answers. `tests/test_interface.py` holds
//! them to it.

use std::{mem::size_of, os::raw::c_char};

/// The most jobs of a graph.
pub const MAX_JOBS: u32 = 4_096;
/// The most arcs of a graph.
pub const MAX_ARCS: u32 = 32_768;
/// The most bucket bits of a graph.
pub const MAX_BITS: u32 = 8;
/// The most workers of a graph.
pub const MAX_WORKERS: u32 = 16;
/// The longest list of prerequisites.
pub const MAX_NAMES: usize = 32;
/// The greatest class.
pub const MAX_CLASS: u32 = 15;
/// The greatest grower.
pub const MAX_GROWER: u32 = 65_535;
/// The words of an entry, which is a row of a sheet that was read.
pub const ENTRY_WORDS: usize = 36;
/// The longest entry of a sheet, in bytes.
pub const MAX_ENTRY_BYTES: usize = 137;
/// The entries that one call adds at most.
pub const MAX_ENTRIES: usize = 64;
/// The classes, each of which has its minutes.
pub const CLASSES: usize = 16;
/// The most minutes of a class.
pub const MAX_MINUTES: u32 = 1_440;
/// The longest sheet that the day list reads, in bytes.
pub const MAX_DAY_SHEET: usize = 32_768;
/// The longest day list of two workers, in bytes.
pub const MAX_DAY_LIST: usize = 97_979;
/// The jobs that a day list has room for.
pub const DAY_JOBS: usize = 256;
/// The arcs that a day list has room for.
pub const DAY_ARCS: u32 = 1_024;
/// The bucket bits of a day list.
pub const DAY_BITS: u32 = 4;

/// A job as an entry of a sheet: the first `count` of `names` are its prerequisites.
#[repr(C)]
#[derive(Clone, Copy, Debug, Default, PartialEq, Eq)]
pub struct Entry {
    /// The job's name.
    pub name: u32,
    /// How many prerequisites it has.
    pub count: u32,
    /// Its class.
    pub class: u32,
    /// Its grower.
    pub grower: u32,
    /// The names of its prerequisites.
    pub names: [u32; MAX_NAMES],
}

/// What reading an entry answers.
#[repr(C)]
#[derive(Clone, Copy, Debug, Default, PartialEq, Eq)]
pub struct Reading {
    /// 0, 12, 13 or 14.
    pub number: u32,
    /// 1 where there is an entry, else 0.
    pub found: u32,
    /// The offset past the entry, or that of the field refused.
    pub at: usize,
    /// The entry, all 0 where there is none.
    pub entry: Entry,
}

/// What writing an entry answers.
#[repr(C)]
#[derive(Clone, Copy, Debug, Default, PartialEq, Eq)]
pub struct Written {
    /// 0, 14 or 15.
    pub number: u32,
    /// The offset past the entry, or for 14 that of the field from the entry's start.
    pub at: usize,
}

/// What reading a whole sheet answers.
#[repr(C)]
#[derive(Clone, Copy, Debug, Default, PartialEq, Eq)]
pub struct Sheet {
    /// 0, 12, 13, 14 or 15.
    pub number: u32,
    /// How many entries it has.
    pub entries: usize,
    /// The offset of the field refused.
    pub at: usize,
}

/// What writing a whole sheet answers.
#[repr(C)]
#[derive(Clone, Copy, Debug, Default, PartialEq, Eq)]
pub struct SheetWritten {
    /// 0, 1, 14 or 15.
    pub number: u32,
    /// How many entries were written, or for 14 which one is refused.
    pub entry: usize,
    /// How many bytes were written, or for 14 the offset of the field from the entry's start.
    pub at: usize,
}

/// What a sheet comes to; fields that do not belong to its number are 0.
#[repr(C)]
#[derive(Clone, Copy, Debug, Default, PartialEq, Eq)]
pub struct Room {
    /// 0; 5, 6, 7 or 8 of the first entry whose add would be refused; 12, 13 or 14 of a sheet that cannot be read.
    pub number: u32,
    /// For 5, 6, 7 and 8 that entry, from 0.
    pub entry: u32,
    /// For 6 the place in its list.
    pub place: u32,
    /// For 0 the jobs that the sheet needs.
    pub jobs: u32,
    /// For 0 the arcs that it needs.
    pub arcs: u32,
    /// For 0 the steps of a full run.
    pub steps: u32,
    /// For 12, 13 and 14 the offset of the field.
    pub at: usize,
}

/// A job as the board reads it.
#[repr(C)]
#[derive(Clone, Copy, Debug, Default, PartialEq, Eq)]
pub struct JobRecord {
    /// 0 unexecuted, 1 executing, 2 finished.
    pub label: u32,
    /// 0 to 15.
    pub class: u32,
}

/// What the board answers, by label.
#[repr(C)]
#[derive(Clone, Copy, Debug, Default, PartialEq, Eq)]
pub struct Totals {
    /// 0, 1, 9 or 17.
    pub number: u32,
    /// The jobs under each label.
    pub jobs: [u32; 3],
    /// The sums of their minutes.
    pub minutes: [u32; 3],
}

/// The sizes of a graph, which laying out judges and keeps.
#[repr(C)]
#[derive(Clone, Copy, Debug, Default, PartialEq, Eq)]
pub struct Sizes {
    /// The most jobs, 1 to 4,096.
    pub jobs: u32,
    /// The most listed names of all jobs together, 0 to 32,768.
    pub arcs: u32,
    /// Bucket bits, 1 to 8: a look-up by name walks one of 2 to this power buckets.
    pub bits: u32,
    /// Workers, 1 to 16, numbered from 0.
    pub workers: u32,
}

/// What a call of the task graph answers; fields that do not belong to its kind are 0.
#[repr(C)]
#[derive(Clone, Copy, Debug, Default, PartialEq, Eq)]
pub struct Answer {
    /// One of [`kind`](crate::raw::kind).
    pub kind: u32,
    /// The number of a refusal, or 9 of a call that was stopped.
    pub number: u32,
    /// For number 6, the place in the list.
    pub place: u32,
    /// The number of the job handed out.
    pub job: u32,
    /// Its name.
    pub name: u32,
    /// 1 where it is spoiled, else 0.
    pub spoiled: u32,
}

/// The minutes that stand in a graph.
#[repr(C)]
#[derive(Clone, Copy, Debug, Default, PartialEq, Eq)]
pub struct GraphMinutes {
    /// 0, 1 or 9.
    pub number: u32,
    /// The minutes of each class, all 0 on a refusal.
    pub minutes: [u32; CLASSES],
}

/// The words that each table needs.
#[repr(C)]
#[derive(Clone, Copy, Debug, Default, PartialEq, Eq)]
pub struct Need {
    /// 0, or 1 where a size is off its limits.
    pub number: u32,
    /// Words of the jobs table.
    pub jobs: usize,
    /// Words of the arcs table.
    pub arcs: usize,
    /// Words of the buckets table.
    pub buckets: usize,
    /// Words of the queue table.
    pub queue: usize,
    /// Words of the workers table.
    pub workers: usize,
}

/// What adding the entries of a sheet answers.
#[repr(C)]
#[derive(Clone, Copy, Debug, PartialEq, Eq)]
pub struct SheetAdded {
    /// 0, or the number that turned the sheet away before any entry: 1, 2, 9, 3 or 16.
    pub number: u32,
    /// For each entry the number that refused its add, or 0.
    pub numbers: [u32; MAX_ENTRIES],
    /// For each entry refused by 6 the place in its list, else 0.
    pub places: [u32; MAX_ENTRIES],
    /// 1 more than the number of the entry whose add damaged words stopped half done, or 0.
    pub stopped: u32,
}

impl Default for SheetAdded {
    fn default() -> SheetAdded {
        SheetAdded { number: 0, numbers: [0; MAX_ENTRIES], places: [0; MAX_ENTRIES], stopped: 0 }
    }
}

/// What a worker holds, and the call that it has half done.
#[repr(C)]
#[derive(Clone, Copy, Debug, Default, PartialEq, Eq)]
pub struct Holding {
    /// 0, 1, 2 or 9.
    pub number: u32,
    /// 1 where it holds a job, else 0.
    pub holds: u32,
    /// The number of the job that it holds.
    pub job: u32,
    /// Its name.
    pub name: u32,
    /// [`CALL_NONE`](crate::raw::CALL_NONE), or the call that is half done.
    pub call: u32,
    /// The name of the job that an add half done adds, else 0.
    pub adds: u32,
    /// 1 where the job that it holds is spoiled, else 0.
    pub spoiled: u32,
}

/// Whether the queue is empty and every worker idle and without a job.
#[repr(C)]
#[derive(Clone, Copy, Debug, Default, PartialEq, Eq)]
pub struct DrainedAnswer {
    /// 0, 1 or 9.
    pub number: u32,
    /// 1 where it is so, else 0.
    pub drained: u32,
}

/// What the day list answers.
#[repr(C)]
#[derive(Clone, Copy, Debug, Default, PartialEq, Eq)]
pub struct Day {
    /// 0, 1 or 15.
    pub number: u32,
    /// How many bytes the lines take.
    pub bytes: usize,
}

const _: () = assert!(size_of::<Entry>() == 4 * ENTRY_WORDS);
const _: () = assert!(size_of::<Reading>() == 16 + 4 * ENTRY_WORDS);
const _: () = assert!(size_of::<Written>() == 16);
const _: () = assert!(size_of::<Sheet>() == 24);
const _: () = assert!(size_of::<SheetWritten>() == 24);
const _: () = assert!(size_of::<Room>() == 32);
const _: () = assert!(size_of::<JobRecord>() == 8);
const _: () = assert!(size_of::<Totals>() == 28);
const _: () = assert!(size_of::<Sizes>() == 16);
const _: () = assert!(size_of::<Answer>() == 24);
const _: () = assert!(size_of::<GraphMinutes>() == 4 * (1 + CLASSES));
const _: () = assert!(size_of::<Need>() == 48);
const _: () = assert!(size_of::<SheetAdded>() == 8 + 8 * MAX_ENTRIES);
const _: () = assert!(size_of::<Holding>() == 28);
const _: () = assert!(size_of::<DrainedAnswer>() == 8);
const _: () = assert!(size_of::<Day>() == 16);

extern "C" {
    /// The text of a refusal's number.
    pub fn tg_message(number: u32) -> *const c_char;
    /// The library's version.
    pub fn tg_version() -> *const c_char;
    /// The entry at an offset of a sheet.
    pub fn tg_read_entry(sheet: *const u8, sheet_len: usize, at: usize) -> Reading;
    /// Writes an entry at an offset.
    pub fn tg_write_entry(out: *mut u8, out_len: usize, at: usize, entry: Entry) -> Written;
    /// Judges a whole sheet and counts its entries.
    pub fn tg_scan_sheet(sheet: *const u8, sheet_len: usize) -> Sheet;
    /// Reads a whole sheet into rows of words.
    pub fn tg_read_sheet(sheet: *const u8, sheet_len: usize, rows: *mut u32, rows_len: usize) -> Sheet;
    /// Writes the entries of all rows.
    pub fn tg_write_sheet(rows: *const u32, rows_len: usize, out: *mut u8, out_len: usize) -> SheetWritten;
    /// What a sheet comes to, before it touches a graph.
    pub fn tg_room_of_sheet(sheet: *const u8, sheet_len: usize) -> Room;
    /// The bucket of a name.
    pub fn tg_bucket(name: u32, bits: u32) -> u32;
    /// The fixed minutes of a class.
    pub fn tg_minutes(class: u32) -> u32;
    /// The totals of records given as words, by the fixed minutes.
    pub fn tg_totals_of_words(words: *const u32, words_len: usize) -> Totals;
    /// The totals of a row of records, by the fixed minutes.
    pub fn tg_totals_of_records(records: *const JobRecord, records_len: usize) -> Totals;
    /// The totals of a row of records, by a district's minutes.
    pub fn tg_totals_by_minutes(
        records: *const JobRecord,
        records_len: usize,
        minutes: *const u32,
        minutes_len: usize,
    ) -> Totals;
    /// The words that each table needs.
    pub fn tg_words_needed(sizes: Sizes) -> Need;
    /// Makes a fresh graph.
    pub fn tg_lay_out(
        sizes: Sizes,
        jobs: *mut u32,
        jobs_len: usize,
        arcs: *mut u32,
        arcs_len: usize,
        buckets: *mut u32,
        buckets_len: usize,
        queue: *mut u32,
        queue_len: usize,
        workers: *mut u32,
        workers_len: usize,
    ) -> Answer;
    /// Loads a district's minutes.
    pub fn tg_load_minutes(
        sizes: Sizes,
        jobs: *mut u32,
        jobs_len: usize,
        arcs: *mut u32,
        arcs_len: usize,
        buckets: *mut u32,
        buckets_len: usize,
        queue: *mut u32,
        queue_len: usize,
        workers: *mut u32,
        workers_len: usize,
        minutes: *const u32,
        minutes_len: usize,
    ) -> Answer;
    /// Posts an add.
    pub fn tg_post_add(
        sizes: Sizes,
        jobs: *mut u32,
        jobs_len: usize,
        arcs: *mut u32,
        arcs_len: usize,
        buckets: *mut u32,
        buckets_len: usize,
        queue: *mut u32,
        queue_len: usize,
        workers: *mut u32,
        workers_len: usize,
        worker: u32,
        entry: Entry,
    ) -> Answer;
    /// Posts a finish.
    pub fn tg_post_finish(
        sizes: Sizes,
        jobs: *mut u32,
        jobs_len: usize,
        arcs: *mut u32,
        arcs_len: usize,
        buckets: *mut u32,
        buckets_len: usize,
        queue: *mut u32,
        queue_len: usize,
        workers: *mut u32,
        workers_len: usize,
        worker: u32,
        name: u32,
        outcome: u32,
    ) -> Answer;
    /// One step of the worker's call.
    pub fn tg_step(
        sizes: Sizes,
        jobs: *mut u32,
        jobs_len: usize,
        arcs: *mut u32,
        arcs_len: usize,
        buckets: *mut u32,
        buckets_len: usize,
        queue: *mut u32,
        queue_len: usize,
        workers: *mut u32,
        workers_len: usize,
        worker: u32,
    ) -> Answer;
    /// Takes the waiting job with the most minutes, of equal minutes the one that entered the queue first.
    pub fn tg_get(
        sizes: Sizes,
        jobs: *mut u32,
        jobs_len: usize,
        arcs: *mut u32,
        arcs_len: usize,
        buckets: *mut u32,
        buckets_len: usize,
        queue: *mut u32,
        queue_len: usize,
        workers: *mut u32,
        workers_len: usize,
        worker: u32,
    ) -> Answer;
    /// Adds a job, run whole.
    pub fn tg_add(
        sizes: Sizes,
        jobs: *mut u32,
        jobs_len: usize,
        arcs: *mut u32,
        arcs_len: usize,
        buckets: *mut u32,
        buckets_len: usize,
        queue: *mut u32,
        queue_len: usize,
        workers: *mut u32,
        workers_len: usize,
        worker: u32,
        entry: Entry,
    ) -> Answer;
    /// Finishes the held job, run whole.
    pub fn tg_finish(
        sizes: Sizes,
        jobs: *mut u32,
        jobs_len: usize,
        arcs: *mut u32,
        arcs_len: usize,
        buckets: *mut u32,
        buckets_len: usize,
        queue: *mut u32,
        queue_len: usize,
        workers: *mut u32,
        workers_len: usize,
        worker: u32,
        name: u32,
        outcome: u32,
    ) -> Answer;
    /// Adds the entries of all rows, each run whole, in order.
    pub fn tg_add_sheet(
        sizes: Sizes,
        jobs: *mut u32,
        jobs_len: usize,
        arcs: *mut u32,
        arcs_len: usize,
        buckets: *mut u32,
        buckets_len: usize,
        queue: *mut u32,
        queue_len: usize,
        workers: *mut u32,
        workers_len: usize,
        worker: u32,
        rows: *const u32,
        rows_len: usize,
    ) -> SheetAdded;
    /// What a worker holds, and the call that it has half done.
    pub fn tg_held(
        sizes: Sizes,
        jobs: *const u32,
        jobs_len: usize,
        arcs: *const u32,
        arcs_len: usize,
        buckets: *const u32,
        buckets_len: usize,
        queue: *const u32,
        queue_len: usize,
        workers: *const u32,
        workers_len: usize,
        worker: u32,
    ) -> Holding;
    /// Whether the queue is empty and every worker idle and without a job.
    pub fn tg_drained(
        sizes: Sizes,
        jobs: *const u32,
        jobs_len: usize,
        arcs: *const u32,
        arcs_len: usize,
        buckets: *const u32,
        buckets_len: usize,
        queue: *const u32,
        queue_len: usize,
        workers: *const u32,
        workers_len: usize,
    ) -> DrainedAnswer;
    /// The totals of the jobs made, by the minutes that stand in the graph.
    pub fn tg_totals_of_graph(sizes: Sizes, jobs: *const u32, jobs_len: usize) -> Totals;
    /// The minutes that stand in the graph.
    pub fn tg_minutes_of_graph(sizes: Sizes, jobs: *const u32, jobs_len: usize) -> GraphMinutes;
    /// What the day list prints of a sheet.
    pub fn tg_day_list(sheet: *const u8, sheet_len: usize, workers: u32, out: *mut u8, out_len: usize) -> Day;
}
