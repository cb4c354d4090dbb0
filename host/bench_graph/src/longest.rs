//! How long a call holds the lock: a look-up, a get, an add run whole, a sheet and a finish run whole, each at its
//! longest, over 4,096 jobs. Names are spread over the buckets, or all in one. Classes rise, so that a job that is queued
//! goes far up in the index.

use std::{process::ExitCode, time::Instant};

use bench_graph::{calls::Arena, shapes::CLASSES};
use taskgraph::raw::{self, kind, Entry, Sizes, Tables, ENTRY_WORDS, MAX_ENTRIES, MAX_NAMES};

const SIZES: Sizes = Sizes { jobs: 4_096, arcs: 32_768, bits: 8, workers: 1 };

/// The jobs that are there before the sheet, which fills the table.
const BEFORE: usize = 4_096 - MAX_ENTRIES;

/// The best of so many rounds counts.
const ROUNDS: usize = 40;

/// The number by which a name is multiplied for its bucket, and its inverse.
const FACTOR: u32 = 2_654_435_769;

pub fn print() -> ExitCode {
    println!("Microseconds of one call, the best of {ROUNDS} rounds: names spread, names in one bucket");
    let one = inverse(FACTOR);
    let spread = measured(|job| job as u32);
    // Products below 2 to the power 24 have no top bits.
    let one_bucket = measured(|job| (job as u32).wrapping_mul(one));
    let names = [
        "a look-up of one of the oldest names",
        "a get where 4,096 jobs wait",
        "an add of 32 of the oldest names, run whole",
        "a sheet of 64 entries of 32 of the oldest names",
        "a finish of a job with 4,095 dependents, run whole",
    ];
    for ((name, spread), one) in names.iter().zip(spread).zip(one_bucket) {
        println!("{name:<52} {spread:10.2} {one:10.2}");
    }
    ExitCode::SUCCESS
}

/// A number by which an odd one gives 1.
fn inverse(odd: u32) -> u32 {
    (0..5).fold(odd, |guess, _| guess.wrapping_mul(2_u32.wrapping_sub(odd.wrapping_mul(guess))))
}

/// Microseconds of a look-up, a get, an add, a sheet and a finish, with these names.
fn measured(name: impl Fn(usize) -> u32) -> [f64; 5] {
    let mut arena = Arena::new(SIZES);
    let mut best = [f64::INFINITY; 5];
    for _ in 0..ROUNDS {
        let taken = round(&mut arena.lent(), &name);
        best.iter_mut().zip(taken).for_each(|(best, taken)| *best = best.min(taken));
    }
    best
}

fn round(tables: &mut Tables, name: &impl Fn(usize) -> u32) -> [f64; 5] {
    let rows: Vec<u32> = (BEFORE..BEFORE + MAX_ENTRIES).flat_map(|job| entry(name, job, MAX_NAMES).to_row()).collect();
    build(tables, name, BEFORE);
    let (sheet, added) = timed(|| raw::add_sheet(SIZES, tables, 0, &rows));
    assert_eq!((added.number, added.numbers), (0, [0; MAX_ENTRIES]));
    build(tables, name, BEFORE);
    let (add, answer) = timed(|| raw::add(SIZES, tables, 0, entry(name, BEFORE, MAX_NAMES)));
    assert_eq!(answer.kind, kind::ENDED);
    assert_eq!(raw::post_add(SIZES, tables, 0, entry(name, BEFORE + 1, 1)).kind, kind::POSTED);
    let (look_up, answer) = timed(|| raw::step(SIZES, tables, 0));
    assert_eq!(answer.kind, kind::GOING_ON);
    build(tables, name, SIZES.jobs as usize);
    let (get, answer) = timed(|| raw::get(SIZES, tables, 0));
    assert_eq!(answer.kind, kind::HANDED_OUT);
    [look_up, get, add, sheet, finish(tables, name)]
}

/// The finish of a job that all others need.
fn finish(tables: &mut Tables, name: &impl Fn(usize) -> u32) -> f64 {
    raw::lay_out(SIZES, tables);
    let all: Vec<u32> = (0..SIZES.jobs as usize).flat_map(|job| entry(name, job, job.min(1)).to_row()).collect();
    add_all(tables, &all);
    let job = raw::get(SIZES, tables, 0);
    assert_eq!(job.kind, kind::HANDED_OUT);
    let (finish, answer) = timed(|| raw::finish(SIZES, tables, 0, job.name, raw::GOOD));
    assert_eq!(answer.kind, kind::ENDED);
    finish
}

/// So many jobs without lists.
fn build(tables: &mut Tables, name: &impl Fn(usize) -> u32, jobs: usize) {
    raw::lay_out(SIZES, tables);
    let all: Vec<u32> = (0..jobs).flat_map(|job| entry(name, job, 0).to_row()).collect();
    add_all(tables, &all);
}

fn add_all(tables: &mut Tables, rows: &[u32]) {
    for rows in rows.chunks(MAX_ENTRIES * ENTRY_WORDS) {
        assert_eq!(raw::add_sheet(SIZES, tables, 0, rows).number, 0);
    }
}

/// A job that lists so many of the oldest, which stand at the ends of their buckets.
fn entry(name: &impl Fn(usize) -> u32, job: usize, count: usize) -> Entry {
    let mut names = [0; MAX_NAMES];
    names.iter_mut().take(count).enumerate().for_each(|(listed, to)| *to = name(listed));
    let class = (job * CLASSES / SIZES.jobs as usize) as u32;
    Entry { name: name(job), count: count as u32, class, grower: 0, names }
}

fn timed<T>(call: impl FnOnce() -> T) -> (f64, T) {
    let start = Instant::now();
    let answer = call();
    (start.elapsed().as_nanos() as f64 / 1_000.0, answer)
}
