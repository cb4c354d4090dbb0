//! A safe function for each function of the C interface, `include/taskgraph.h`, over lent slices. Every one
//! answers for all arguments, so nothing is tested here; what each answers, the header says.

use std::{ffi::CStr, os::raw::c_char};

use crate::ffi;

pub use crate::ffi::{
    Answer, Day, DrainedAnswer, Entry, GraphMinutes, Holding, JobRecord, Need, Reading, Room, Sheet, SheetAdded,
    SheetWritten, Sizes, Totals, Written, CLASSES, DAY_ARCS, DAY_BITS, DAY_JOBS, ENTRY_WORDS, MAX_ARCS, MAX_BITS,
    MAX_CLASS, MAX_DAY_LIST, MAX_DAY_SHEET, MAX_ENTRIES, MAX_ENTRY_BYTES, MAX_GROWER, MAX_JOBS, MAX_MINUTES, MAX_NAMES,
    MAX_WORKERS,
};

/// The kinds of an answer.
pub mod kind {
    /// Turned away, by `number`.
    pub const REFUSED: u32 = 0;
    /// A fresh graph was made.
    pub const LAID_OUT: u32 = 1;
    /// The call was posted, and steps follow.
    pub const POSTED: u32 = 2;
    /// The call has more steps.
    pub const GOING_ON: u32 = 3;
    /// The call has ended.
    pub const ENDED: u32 = 4;
    /// No job waits.
    pub const NONE_READY: u32 = 5;
    /// `job` was taken, whose name is `name`; `spoiled` is 1 where a prerequisite of it failed.
    pub const HANDED_OUT: u32 = 6;
    /// Minutes were loaded.
    pub const LOADED: u32 = 7;
    /// Damaged words stopped a call run whole half done; `number` is 9.
    pub const STOPPED: u32 = 8;
}

/// A finish as good.
pub const GOOD: u32 = 0;
/// A finish as failed; so does any other number but [`GOOD`] count.
pub const FAILED: u32 = 1;

/// A worker has no call half done.
pub const CALL_NONE: u32 = 0;
/// A worker has an add half done.
pub const CALL_ADD: u32 = 1;
/// A worker has a finish half done.
pub const CALL_FINISH: u32 = 2;

/// The five lent tables; `include/taskgraph.h` says which words they hold.
pub struct Tables<'a> {
    /// Sizes, the jobs made, the minutes of each class, and a record for each job.
    pub jobs: &'a mut [u32],
    /// The arcs reserved, and a record for each arc.
    pub arcs: &'a mut [u32],
    /// The first job of each bucket.
    pub buckets: &'a mut [u32],
    /// Jobs taken and put, and for each place of the queue its cell, a slot of the index and its position.
    pub queue: &'a mut [u32],
    /// A record for each worker.
    pub workers: &'a mut [u32],
}

/// A function of the library with sizes and tables, the pointers got by the method that is named.
macro_rules! lend {
    ($pointer:ident, $function:ident, $sizes:expr, [$($table:ident)*] $(, $more:expr)*) => {
        // SAFETY: the pointers and lengths are those of slices, of which no two overlap where they are written.
        unsafe { ffi::$function($sizes, $($table.$pointer(), $table.len(),)* $($more),*) }
    };
}

/// A function that writes the tables.
macro_rules! call {
    ($function:ident, $sizes:expr, $tables:expr $(, $more:expr)*) => {{
        let Tables { jobs, arcs, buckets, queue, workers } = $tables;
        lend!(as_mut_ptr, $function, $sizes, [jobs arcs buckets queue workers] $(, $more)*)
    }};
}

/// A function that only reads the tables.
macro_rules! ask {
    ($function:ident, $sizes:expr, $words:expr $(, $more:expr)*) => {{
        let [jobs, arcs, buckets, queue, workers] = $words;
        lend!(as_ptr, $function, $sizes, [jobs arcs buckets queue workers] $(, $more)*)
    }};
}

/// The words that each table needs.
pub fn words_needed(sizes: Sizes) -> Need {
    // SAFETY: no pointer is passed.
    unsafe { ffi::tg_words_needed(sizes) }
}

/// Makes a fresh graph.
pub fn lay_out(sizes: Sizes, tables: &mut Tables) -> Answer {
    call!(tg_lay_out, sizes, tables)
}

/// Loads a district's minutes, one for each class, before the first job enters.
pub fn load_minutes(sizes: Sizes, tables: &mut Tables, minutes: &[u32]) -> Answer {
    call!(tg_load_minutes, sizes, tables, minutes.as_ptr(), minutes.len())
}

/// Posts an add.
pub fn post_add(sizes: Sizes, tables: &mut Tables, worker: u32, entry: Entry) -> Answer {
    call!(tg_post_add, sizes, tables, worker, entry)
}

/// Posts a finish with an outcome, [`GOOD`] or [`FAILED`].
pub fn post_finish(sizes: Sizes, tables: &mut Tables, worker: u32, name: u32, outcome: u32) -> Answer {
    call!(tg_post_finish, sizes, tables, worker, name, outcome)
}

/// One step of the worker's call.
pub fn step(sizes: Sizes, tables: &mut Tables, worker: u32) -> Answer {
    call!(tg_step, sizes, tables, worker)
}

/// Takes the waiting job with the most minutes, of equal minutes the one that entered the queue first.
pub fn get(sizes: Sizes, tables: &mut Tables, worker: u32) -> Answer {
    call!(tg_get, sizes, tables, worker)
}

/// Adds a job, run whole.
pub fn add(sizes: Sizes, tables: &mut Tables, worker: u32, entry: Entry) -> Answer {
    call!(tg_add, sizes, tables, worker, entry)
}

/// Finishes the held job of a name with an outcome, [`GOOD`] or [`FAILED`], run whole.
pub fn finish(sizes: Sizes, tables: &mut Tables, worker: u32, name: u32, outcome: u32) -> Answer {
    call!(tg_finish, sizes, tables, worker, name, outcome)
}

/// Adds the entries of all rows, [`ENTRY_WORDS`] words each, run whole, in order.
pub fn add_sheet(sizes: Sizes, tables: &mut Tables, worker: u32, rows: &[u32]) -> SheetAdded {
    call!(tg_add_sheet, sizes, tables, worker, rows.as_ptr(), rows.len())
}

/// What a worker holds, and the call that it has half done; the tables are in the order of [`Tables`].
pub fn held(sizes: Sizes, tables: [&[u32]; 5], worker: u32) -> Holding {
    ask!(tg_held, sizes, tables, worker)
}

/// Whether the queue is empty and every worker idle and without a job; the tables are in the order of [`Tables`].
pub fn drained(sizes: Sizes, tables: [&[u32]; 5]) -> DrainedAnswer {
    ask!(tg_drained, sizes, tables)
}

/// The totals of the jobs made, by the minutes that stand in the graph.
pub fn totals_of_graph(sizes: Sizes, jobs: &[u32]) -> Totals {
    // SAFETY: the pointers and the lengths are those of slices, here and below.
    unsafe { ffi::tg_totals_of_graph(sizes, jobs.as_ptr(), jobs.len()) }
}

/// The minutes that stand in the graph.
pub fn minutes_of_graph(sizes: Sizes, jobs: &[u32]) -> GraphMinutes {
    unsafe { ffi::tg_minutes_of_graph(sizes, jobs.as_ptr(), jobs.len()) }
}

/// The totals of records given as words, by the fixed minutes.
pub fn totals_of_words(words: &[u32]) -> Totals {
    unsafe { ffi::tg_totals_of_words(words.as_ptr(), words.len()) }
}

/// The totals of a row of records, by the fixed minutes.
pub fn totals_of_records(records: &[JobRecord]) -> Totals {
    unsafe { ffi::tg_totals_of_records(records.as_ptr(), records.len()) }
}

/// The totals of a row of records, by a district's minutes.
pub fn totals_by_minutes(records: &[JobRecord], minutes: &[u32]) -> Totals {
    unsafe { ffi::tg_totals_by_minutes(records.as_ptr(), records.len(), minutes.as_ptr(), minutes.len()) }
}

/// What the day list prints of a sheet.
pub fn day_list(sheet: &[u8], workers: u32, out: &mut [u8]) -> Day {
    unsafe { ffi::tg_day_list(sheet.as_ptr(), sheet.len(), workers, out.as_mut_ptr(), out.len()) }
}

/// The entry at offset `at` of a sheet.
pub fn read_entry(sheet: &[u8], at: usize) -> Reading {
    unsafe { ffi::tg_read_entry(sheet.as_ptr(), sheet.len(), at) }
}

/// Writes an entry at offset `at` of `out`.
pub fn write_entry(out: &mut [u8], at: usize, entry: Entry) -> Written {
    unsafe { ffi::tg_write_entry(out.as_mut_ptr(), out.len(), at, entry) }
}

/// Judges a whole sheet and counts its entries.
pub fn scan_sheet(sheet: &[u8]) -> Sheet {
    unsafe { ffi::tg_scan_sheet(sheet.as_ptr(), sheet.len()) }
}

/// Reads a whole sheet into rows of [`ENTRY_WORDS`] words.
pub fn read_sheet(sheet: &[u8], rows: &mut [u32]) -> Sheet {
    unsafe { ffi::tg_read_sheet(sheet.as_ptr(), sheet.len(), rows.as_mut_ptr(), rows.len()) }
}

/// Writes the entries of all rows to the front of `out`.
pub fn write_sheet(rows: &[u32], out: &mut [u8]) -> SheetWritten {
    unsafe { ffi::tg_write_sheet(rows.as_ptr(), rows.len(), out.as_mut_ptr(), out.len()) }
}

/// What a sheet comes to, before it touches a graph. It takes some 33 KB of the thread's stack.
pub fn room_of_sheet(sheet: &[u8]) -> Room {
    unsafe { ffi::tg_room_of_sheet(sheet.as_ptr(), sheet.len()) }
}

/// The bucket of a name among 2 to the power `bits`.
pub fn bucket(name: u32, bits: u32) -> u32 {
    unsafe { ffi::tg_bucket(name, bits) }
}

/// The fixed minutes of a class, or 0.
pub fn minutes(class: u32) -> u32 {
    unsafe { ffi::tg_minutes(class) }
}

/// The text of a refusal's number.
pub fn message(number: u32) -> &'static str {
    // SAFETY: no pointer is passed.
    text(unsafe { ffi::tg_message(number) })
}

/// The library's version.
pub fn version() -> &'static str {
    // SAFETY: no pointer is passed.
    text(unsafe { ffi::tg_version() })
}

fn text(constant: *const c_char) -> &'static str {
    // SAFETY: the library answers a constant text, which ends with a zero byte.
    unsafe { CStr::from_ptr(constant) }.to_str().expect("the library's texts are ASCII")
}

impl Entry {
    /// The entry as a row of words.
    pub fn to_row(self) -> [u32; ENTRY_WORDS] {
        let mut row = [0; ENTRY_WORDS];
        row[..4].copy_from_slice(&[self.name, self.count, self.class, self.grower]);
        row[4..].copy_from_slice(&self.names);
        row
    }
}
