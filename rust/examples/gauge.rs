//! A host in Rust whose gauges may give nothing: it prints what `examples/gauge.c` prints.
//!
//! usage: gauge [GAUGE..]      the gauges that gave nothing today, of 1 to 4

use std::{collections::BTreeSet, env, process::ExitCode};

use taskgraph::{Graph, HandedOut, Job, Outcome, Refusal, Sizes, TaskGraph};

const GAUGES: [u32; 4] = [1, 2, 3, 4];

/// The shares, each with what it rests on.
const SHARES: [(u32, &[u32]); 5] = [(11, &[1]), (12, &[2, 3]), (13, &[4]), (14, &[12, 13]), (15, &[11, 13])];

fn told(name: &u32) -> String {
    format!("{} {name}", if GAUGES.contains(name) { "gauge" } else { "share" })
}

/// Works on a job, and answers how it ends.
fn work_on(graph: &mut Graph, job: HandedOut, silent: &BTreeSet<u32>, failed: &BTreeSet<u32>) -> Outcome {
    let name = job.name;
    let share = SHARES.iter().find(|(share, _)| *share == name);
    match share {
        None if silent.contains(&name) => {
            println!("Gauge {name} gave nothing today.");
            Outcome::Failed
        }
        None => {
            println!("Gauge {name} was read.");
            Outcome::Good
        }
        Some(_) if !job.spoiled => {
            println!("Share {name} is good.");
            Outcome::Good
        }
        Some((_, rests_on)) => {
            // On what it rests the host knows by its own records of what failed.
            let causes: Vec<String> = rests_on.iter().filter(|other| failed.contains(other)).map(told).collect();
            println!("Share {name} rests on {} and is not to be relied on.", causes.join(" and "));
            if let Err(refusal) = graph.finish(0, name, Outcome::Good) {
                println!("Share {name} as good? No: {refusal}.");
            }
            Outcome::Failed
        }
    }
}

fn print_shares(what: &str, shares: impl Iterator<Item = u32>) {
    println!("{what}:{}", shares.map(|name| format!(" {name}")).collect::<String>());
}

fn run(silent: &BTreeSet<u32>) -> Result<(), Refusal> {
    let mut graph = Graph::create(Sizes { jobs: 9, arcs: 16, bits: 2, workers: 1 })?;
    let gauges = GAUGES.iter().map(|name| Job::new(*name, &[]));
    for job in gauges.chain(SHARES.iter().map(|(name, rests_on)| Job::new(*name, rests_on))) {
        graph.add(0, &job)?;
    }
    let mut failed = BTreeSet::new();
    while let Some(job) = graph.get(0)? {
        let outcome = work_on(&mut graph, job, silent, &failed);
        graph.finish(0, job.name, outcome)?;
        if outcome == Outcome::Failed {
            failed.insert(job.name);
        }
    }
    let shares = || SHARES.iter().map(|(name, _)| *name);
    print_shares("Good shares", shares().filter(|name| !failed.contains(name)));
    print_shares("Not to be relied on", shares().filter(|name| failed.contains(name)));
    Ok(())
}

fn main() -> ExitCode {
    let mut silent = BTreeSet::new();
    for word in env::args().skip(1) {
        match GAUGES.iter().find(|name| name.to_string() == word) {
            Some(name) => silent.insert(*name),
            None => {
                eprintln!("There is no gauge {word}.");
                return ExitCode::FAILURE;
            }
        };
    }
    match run(&silent) {
        Ok(()) => ExitCode::SUCCESS,
        Err(refusal) => {
            eprintln!("{refusal}");
            ExitCode::FAILURE
        }
    }
}
