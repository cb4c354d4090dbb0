//! How long the room of the slowest sheet takes: 4,096 jobs, each of which lists the 8 oldest. Names are spread over
//! the chains in which the library keeps them, or all in one.

use std::{process::ExitCode, time::Instant};

use compare_sheets::inputs::sheet_of;
use taskgraph::raw::{self, Entry, MAX_JOBS};

/// The best of so many rounds counts.
const ROUNDS: usize = 5;

/// Times the factor of buckets, this is 1.
const ONE_BUCKET: u32 = 340_573_321;

pub fn print() -> ExitCode {
    println!("Milliseconds of one tg_room_of_sheet, 4,096 jobs with the 8 oldest as their lists; the best of {ROUNDS}");
    for (names, step) in [("names spread", 1), ("names in one bucket", ONE_BUCKET)] {
        let sheet = sheet_of(&(0..MAX_JOBS).map(|job| entry(job, step)).collect::<Vec<_>>());
        let best = (0..ROUNDS).map(|_| timed(&sheet)).fold(f64::INFINITY, f64::min);
        println!("{names:<22} {best:8.2}");
    }
    ExitCode::SUCCESS
}

fn entry(job: u32, step: u32) -> Entry {
    let mut entry = Entry { name: job.wrapping_mul(step), ..Entry::default() };
    if job >= 8 {
        entry.count = 8;
        entry.names.iter_mut().take(8).zip(0..).for_each(|(name, listed)| *name = step.wrapping_mul(listed));
    }
    entry
}

fn timed(sheet: &[u8]) -> f64 {
    let start = Instant::now();
    assert_eq!(raw::room_of_sheet(sheet).number, 0);
    start.elapsed().as_secs_f64() * 1_000.0
}
