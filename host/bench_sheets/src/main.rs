//! The speed of reading and writing job sheets: the proved library, through its C interface, beside
//! the second implementation, both in this process and on the same sheets. Then that of telling a sheet's room, beside
//! unproved Rust and beside the library's own reading and adding. Then the instructions of both, counted; it fails
//! where the library takes more of them than it may beside the other.
//!
//! With the argument `longest`: how long the room of the slowest sheet takes.
//!
//! With the arguments `count`, a side (`library` or `other`), what is done (`read`, `write`, or the room beside
//! `unproved`, `reading` or `adding`), and the name of sheets: does it once with each of these, for callgrind to count.

mod longest;
mod room;
mod sheets;
mod unproved;

use std::{
    env,
    process::ExitCode,
    time::{Duration, Instant},
};

use counting::{Row, Table};
use second_implementation::sheet;
use sheets::{Sample, Workload};
use taskgraph::raw::{self, ENTRY_WORDS};

/// Rounds of each measurement; the two implementations take turns, and the best round of each counts.
/// The number is fixed: rounds added only where the library is slow would favour it.
const ROUNDS: usize = 201;

/// About how long a round takes: short, so that some rounds pass without a switch to another process.
const ROUND_TIME: Duration = Duration::from_micros(800);

/// One pass over all sheets of a workload by one side.
type Pass<'a> = &'a mut dyn FnMut();

fn main() -> ExitCode {
    let arguments: Vec<String> = env::args().skip(1).collect();
    match arguments.iter().map(String::as_str).collect::<Vec<_>>()[..] {
        [] => beside_others(),
        ["longest"] => longest::print(),
        ["count", side @ ("library" | "other"), what, name] => count(side, what, name),
        _ => {
            eprintln!("usage: bench_sheets [longest | count library|other WHAT SHEETS]");
            ExitCode::FAILURE
        }
    }
}

fn beside_others() -> ExitCode {
    println!("The proved library beside the second implementation, both built for release, on the same sheets.");
    println!("The best of {ROUNDS} rounds of each, taken in turns. Outputs are used again and not cleared first.");
    let mut rows = Vec::new();
    for workload in sheets::all() {
        println!("{}", workload.description);
        for (place, what) in ["read", "write"].into_iter().enumerate() {
            let time = measured(what, "second", &workload);
            if let Some(most) = workload.most {
                rows.push(row(what, workload.name, most[place], time));
            }
        }
    }
    let mut tables = vec![Table { title: "", library: "library", other: "second", rows }];
    println!("The room of a sheet by the library, beside unproved Rust, beside reading the sheet, and beside");
    println!("laying out a graph of greatest size, reading the sheet and adding it.");
    tables.extend(room::OTHERS.map(|other| Table { title: "room", library: "library", other, rows: Vec::new() }));
    for (name, most) in sheets::FITTING {
        let workload = sheets::fitting(name);
        println!("{}", workload.description);
        let library = instructions("library", room::OTHERS[0], name);
        for (table, what) in tables[1..].iter_mut().zip(room::OTHERS) {
            let time = measured(what, what, &workload);
            let other = instructions("other", what, name);
            let most = if what == "unproved" { most } else { None };
            table.rows.push(Row { name: name.into(), library, other, most, time });
        }
    }
    counting::judge(&tables)
}

fn measured(what: &str, other: &str, workload: &Workload) -> f64 {
    with_passes(what, workload, |library, others| compare(what, other, workload, library, others))
}

fn row(what: &str, name: &str, most: f64, time: f64) -> Row {
    let (library, other) = (instructions("library", what, name), instructions("other", what, name));
    Row { name: format!("{what} {name}"), library, other, most: Some(most), time }
}

fn instructions(side: &str, what: &str, name: &str) -> u64 {
    counting::instructions(&["count", side, what, name])
}

/// Does it once with sheets, for callgrind to count.
fn count(side: &str, what: &str, name: &str) -> ExitCode {
    let workload = match sheets::FITTING.into_iter().find(|(fitting, _)| *fitting == name) {
        Some((name, _)) => sheets::fitting(name),
        None => sheets::all().into_iter().find(|workload| workload.name == name).expect("the name of sheets"),
    };
    with_passes(what, &workload, |library, other| {
        counting::counted(if side == "library" { library } else { other });
    });
    ExitCode::SUCCESS
}

fn with_passes<T>(what: &str, workload: &Workload, measure: impl FnOnce(Pass, Pass) -> T) -> T {
    match what {
        "read" => reading(&workload.samples, measure),
        "write" => writing(&workload.samples, measure),
        _ => room::with_passes(what, workload, measure),
    }
}

/// Reads each sheet into rows of words (library) and into a vector of entries (second), both
/// of which have the room already.
fn reading<T>(samples: &[Sample], measure: impl FnOnce(Pass, Pass) -> T) -> T {
    let most_entries = samples.iter().map(|sample| sample.entries.len()).max().unwrap_or(0);
    let mut rows = vec![0; most_entries * ENTRY_WORDS];
    let mut entries = Vec::with_capacity(most_entries);
    for sample in samples {
        raw::read_sheet(&sample.sheet, &mut rows);
        entries.clear();
        assert_eq!(sheet::read_sheet(&sample.sheet, &mut entries), Ok(()));
        assert!(rows.starts_with(&sample.rows) && entries == sample.entries, "both read what was written");
    }
    let mut library = |sample: &Sample| assert_eq!(raw::read_sheet(&sample.sheet, &mut rows).number, 0);
    let mut second = |sample: &Sample| {
        entries.clear();
        assert_eq!(sheet::read_sheet(&sample.sheet, &mut entries), Ok(()));
    };
    measure(&mut || samples.iter().for_each(&mut library), &mut || samples.iter().for_each(&mut second))
}

/// Writes the entries of each sheet to a buffer that just holds them.
fn writing<T>(samples: &[Sample], measure: impl FnOnce(Pass, Pass) -> T) -> T {
    let len = samples[0].sheet.len();
    let mut by_library = vec![0; len];
    let mut by_second = vec![0; len];
    for sample in samples {
        raw::write_sheet(&sample.rows, &mut by_library);
        assert_eq!(sheet::write_sheet(&sample.entries, &mut by_second), Ok(len));
        assert!(by_library == sample.sheet && by_second == sample.sheet, "both write the sheet");
    }
    let mut library = |sample: &Sample| assert_eq!(raw::write_sheet(&sample.rows, &mut by_library).number, 0);
    let mut second = |sample: &Sample| assert_eq!(sheet::write_sheet(&sample.entries, &mut by_second), Ok(len));
    measure(&mut || samples.iter().for_each(&mut library), &mut || samples.iter().for_each(&mut second))
}

/// Prints the throughput of both and gives the library's time as a multiple of the other's. A round goes once
/// over all sheets, again and again until it is long enough to be timed.
fn compare(what: &str, other: &str, workload: &Workload, library: Pass, others: Pass) -> f64 {
    let library_calls = calls_in_a_round(library);
    let other_calls = calls_in_a_round(others);
    let mut library_best = f64::INFINITY;
    let mut other_best = f64::INFINITY;
    for _ in 0..ROUNDS {
        library_best = library_best.min(seconds_per_call(library_calls, library));
        other_best = other_best.min(seconds_per_call(other_calls, others));
    }
    let ratio = library_best / other_best;
    let bytes: usize = workload.samples.iter().map(|sample| sample.sheet.len()).sum();
    let throughput = |seconds: f64| bytes as f64 / seconds / 1e6;
    let what = if what == other { "room" } else { what };
    println!(
        "  {what:<5}  library {:7.0} MB/s   {other:<8} {:7.0} MB/s   times {ratio:.2}",
        throughput(library_best),
        throughput(other_best),
    );
    ratio
}

/// How many passes over all sheets fill a round; the first ones also bring code and data into the caches.
fn calls_in_a_round(call: Pass) -> u32 {
    let mut calls = 1;
    loop {
        let seconds = seconds_per_call(calls, call);
        if seconds * f64::from(calls) > ROUND_TIME.as_secs_f64() / 4.0 {
            return (ROUND_TIME.as_secs_f64() / seconds).ceil() as u32;
        }
        calls *= 2;
    }
}

fn seconds_per_call(calls: u32, call: Pass) -> f64 {
    let start = Instant::now();
    for _ in 0..calls {
        call();
    }
    start.elapsed().as_secs_f64() / f64::from(calls)
}
