//! A host in Rust: reads a grower's job sheet, adds its jobs, up to 64 in one call, and lets two workers take and
//! finish them in turn. It prints what the day list prints.
//!
//! usage: day [SHEET]      (without SHEET, the sheet of `docs/RULES.md`)
//!
//! A sheet is judged before the graph is touched: one that cannot be read, has an entry that no fresh graph accepts, or
//! needs more room than there is, is refused as a whole. Exit status: 0 the day was run, 1 the sheet is refused, 2 the
//! file cannot be read or the usage is wrong.

use std::{env, ffi::OsString, fs, process::ExitCode};

use taskgraph::{read_sheet, room_of_sheet, Graph, Job, Outcome, Refusal, Room, Sizes, TaskGraph};

const SIZES: Sizes = Sizes { jobs: 256, arcs: 1024, bits: 4, workers: 2 };
const FOUR_JOBS: [u8; 29] = [1, 1, 0, 0, 0, 1, 2, 0, 0, 0, 1, 3, 0, 0, 0, 3, 4, 0, 0, 0, 2, 1, 0, 0, 0, 2, 0, 0, 0];

fn main() -> ExitCode {
    let arguments: Vec<OsString> = env::args_os().skip(1).collect();
    let (name, sheet) = match &arguments[..] {
        [] => ("the sheet".into(), FOUR_JOBS.to_vec()),
        [file] => match fs::read(file) {
            Ok(sheet) => (file.to_string_lossy(), sheet),
            Err(error) => return stop(&format!("{}: {error}", file.to_string_lossy()), 2),
        },
        _ => return stop("usage: day [SHEET]", 2),
    };
    match why_refused(&sheet) {
        Some(why) => stop(&format!("{name}: {why}"), 1),
        None => match read_sheet(&sheet).and_then(|jobs| day(&jobs)) {
            Ok(()) => ExitCode::SUCCESS,
            Err(refusal) => stop(&refusal.to_string(), 2),
        },
    }
}

fn stop(text: &str, status: u8) -> ExitCode {
    eprintln!("{text}");
    ExitCode::from(status)
}

/// Why a fresh graph of these sizes would not accept the sheet whole; nothing where it would.
fn why_refused(sheet: &[u8]) -> Option<String> {
    match room_of_sheet(sheet) {
        Ok(room) if room.fits(SIZES) => None,
        Ok(Room { jobs, arcs, .. }) => {
            let Sizes { jobs: most_jobs, arcs: most_arcs, .. } = SIZES;
            let there = format!("there is room for {most_jobs} and {most_arcs}");
            Some(format!("it needs room for {jobs} jobs and {arcs} arcs; {there}"))
        }
        Err(refusal) => Some(refusal.to_string()),
    }
}

fn day(jobs: &[Job]) -> Result<(), Refusal> {
    let mut graph = Graph::create(SIZES)?;
    let answers = graph.add_all(0, jobs)?;
    for (entry, answer) in answers.iter().enumerate() {
        if let Err(refusal) = answer {
            println!("refused {entry} {}", refusal.number());
        }
    }
    let added = answers.iter().filter(|answer| answer.is_ok()).count();
    println!("jobs {added} workers {}", SIZES.workers);

    let mut handed_out = 0;
    loop {
        let mut holders = Vec::new();
        for worker in 0..SIZES.workers {
            if let Some(job) = graph.get(worker)? {
                println!("{handed_out} {} {worker}", job.name);
                handed_out += 1;
                holders.push((worker, job.name));
            }
        }
        if holders.is_empty() {
            break;
        }
        for (worker, name) in holders {
            graph.finish(worker, name, Outcome::Good)?;
        }
    }
    assert!(graph.drained()?);
    println!("left {}", added as u32 - graph.totals()?.finished.jobs);
    Ok(())
}
