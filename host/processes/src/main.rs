//! Sixteen worker processes over one graph in shared memory, with the lock round each call and each step: 4,096 jobs
//! with 32,768 arcs, jobs of random length. Some workers take single steps, some run their calls whole, and some add by
//! sheets. A district's minutes are loaded at the start, and all workers try to load their own as they work, which is
//! refused once a job has entered. Some jobs fail, and those that rest on them are spoiled; workers try to end such a job
//! as good, which is turned away. Afterwards the workers' logs say whether a job was taken before its prerequisites,
//! twice, or before a heavier one, and whether just the right jobs were told to be spoiled. Then the same with a worker
//! killed between two calls at a random moment, after which the others go on.
//!
//! usage: processes [RUNS]      RUNS with a killed worker, 8 if it is not said

#![forbid(unsafe_code)]

mod check;
mod log;
mod plan;
mod shared;
mod worker;

use std::{
    env, fs,
    path::{Path, PathBuf},
    process::{self, Child, Command, ExitCode},
    thread,
    time::{Duration, Instant},
};

use check::{Check, Words};
use compare_sheets::random::{seed, Random};
use plan::{Plan, FIRST_LOADER};
use shared::{Fallible, Shared, JOBS, WORKERS};
use taskgraph::{TaskGraph, CLASSES};
use worker::Worker;

/// A run that takes so long hangs.
const LIMIT: Duration = Duration::from_secs(3_600);

fn main() -> ExitCode {
    let arguments: Vec<String> = env::args().skip(1).collect();
    match arguments.iter().map(String::as_str).collect::<Vec<_>>()[..] {
        ["worker", number, seed, folder, log] => work(number, seed, Path::new(folder), Path::new(log)),
        [] => run_all(8),
        [runs] if runs.parse::<u64>().is_ok() => run_all(runs.parse().unwrap_or(0)),
        _ => {
            eprintln!("usage: processes [RUNS]");
            ExitCode::from(2)
        }
    }
}

fn run_all(killing: u64) -> ExitCode {
    let seed = seed();
    let (mut passed, mut failed) = (0, 0);
    for run in 0..=killing {
        let what = if run == 0 { "all workers to the end" } else { "a worker killed" };
        match Run::new(seed.wrapping_add(run)).and_then(|mut run_of| run_of.run(run > 0)) {
            Ok(said) => {
                passed += 1;
                println!("{what}: {said} (seed {})", seed.wrapping_add(run));
            }
            Err(fault) => {
                failed += 1;
                println!("{what}: {fault} (seed {})", seed.wrapping_add(run));
            }
        }
    }
    println!("{passed} passed, {failed} failed");
    if failed == 0 {
        ExitCode::SUCCESS
    } else {
        ExitCode::FAILURE
    }
}

fn work(number: &str, seed: &str, folder: &Path, log: &Path) -> ExitCode {
    let number = number.parse().expect("the worker's number");
    let seed = seed.parse().expect("the seed");
    match Worker::new(number, seed, folder, log).and_then(Worker::run) {
        Ok(()) => ExitCode::SUCCESS,
        Err(error) => {
            eprintln!("worker {number}: {error}");
            ExitCode::FAILURE
        }
    }
}

/// One run: a folder with the shared files and the logs.
struct Run {
    seed: u64,
    folder: PathBuf,
    shared: Shared,
    workers: Vec<Child>,
}

impl Drop for Run {
    fn drop(&mut self) {
        for worker in &mut self.workers {
            // A worker that has ended already cannot be killed any more.
            let _ = worker.kill();
            let _ = worker.wait();
        }
        let _ = fs::remove_dir_all(&self.folder);
    }
}

impl Run {
    fn new(seed: u64) -> Fallible<Run> {
        let folder = env::temp_dir().join(format!("taskgraph-processes-{}-{seed}", process::id()));
        fs::create_dir(&folder)?;
        let shared = Shared::create(&folder)?;
        shared.lock()?.load(FIRST_LOADER, &Plan::new(seed).minutes(FIRST_LOADER))?;
        Ok(Run { seed, folder, shared, workers: Vec::new() })
    }

    fn log(&self, worker: usize) -> PathBuf {
        self.folder.join(format!("log-{worker}"))
    }

    /// Runs the workers, and says what they did or what is wrong with it.
    fn run(&mut self, kill: bool) -> Fallible<String> {
        let start = Instant::now();
        self.start()?;
        let victim = if kill { Some(self.kill_one()?) } else { None };
        self.wait(victim, start + LIMIT)?;
        let took = start.elapsed();
        let plan = Plan::new(self.seed);
        let killed = usize::from(kill);
        let logs: Result<Vec<String>, _> = (0..WORKERS).map(|worker| fs::read_to_string(self.log(worker))).collect();
        let check = Check::new(&plan, &logs?)?;
        check.order()?;
        let minutes = self.minutes(&plan)?;
        let overtaking = check.hand_outs(&minutes)?;
        check.progress(killed)?;
        let words = self.words()?;
        check.tables(&words, killed)?;
        check.totals(&self.shared.lock()?.graph.totals()?, &words, &minutes)?;
        let [taken, refused] = check.loads()?;
        // A killed worker may have been the one that kept all jobs behind the first failed one from entering.
        let [spoiled, turned_away] = if kill { check.spoiled().unwrap_or_default() } else { check.spoiled()? };
        if !kill && !self.shared.lock()?.graph.drained()? {
            return Err("the graph is not drained".into());
        }
        Ok(format!(
            "{} of {JOBS} jobs finished by {WORKERS} processes, {overtaking} handed out before others that waited longer, \
             {spoiled} told to be spoiled, {turned_away} finishes of these as good turned away, {} loads of minutes taken \
             and {refused} refused, in {:.1} s",
            check.finished(),
            1 + taken,
            took.as_secs_f64()
        ))
    }

    fn start(&mut self) -> Fallible<()> {
        let program = env::current_exe()?;
        for worker in 0..WORKERS {
            let mut command = Command::new(&program);
            command.args(["worker", &worker.to_string(), &self.seed.to_string()]);
            self.workers.push(command.arg(&self.folder).arg(self.log(worker)).spawn()?);
        }
        Ok(())
    }

    /// Kills a worker at a random moment. The lock is held meanwhile, so the worker is between two calls.
    fn kill_one(&mut self) -> Fallible<u32> {
        let mut random = Random::new(self.seed, "the moment of the kill");
        let victim = random.below(WORKERS) as u32;
        let (tickets, pause) = (random.below(JOBS) as u32, random.below(3_000) as u64);
        let end = Instant::now() + LIMIT;
        while self.shared.lock()?.tickets()? < tickets {
            for (number, worker) in self.workers.iter_mut().enumerate() {
                if let Some(status) = worker.try_wait()? {
                    return Err(format!("worker {number} has ended already: {status}").into());
                }
            }
            if Instant::now() > end {
                return Err("the workers do not go on".into());
            }
            thread::sleep(Duration::from_micros(200));
        }
        thread::sleep(Duration::from_micros(pause));
        let held = self.shared.lock()?;
        self.workers[victim as usize].kill()?;
        self.workers[victim as usize].wait()?;
        held.set_dead(victim)?;
        Ok(victim)
    }

    /// Waits for all workers but the one killed.
    fn wait(&mut self, killed: Option<u32>, end: Instant) -> Fallible<()> {
        for (number, worker) in self.workers.iter_mut().enumerate() {
            if Some(number as u32) == killed {
                continue;
            }
            loop {
                match worker.try_wait()? {
                    Some(status) if status.success() => break,
                    Some(status) => return Err(format!("worker {number}: {status}").into()),
                    None if Instant::now() > end => return Err(format!("worker {number} does not end").into()),
                    None => thread::sleep(Duration::from_millis(2)),
                }
            }
        }
        Ok(())
    }

    /// The minutes that stand in the graph, which are those loaded last.
    fn minutes(&self, plan: &Plan) -> Fallible<[u32; CLASSES]> {
        let held = self.shared.lock()?;
        let (minutes, loaded) = (held.graph.minutes()?, plan.minutes(held.loader()?));
        if minutes[..] != loaded {
            return Err(format!("the graph has the minutes {minutes:?}, not {loaded:?}").into());
        }
        Ok(minutes)
    }

    fn words(&self) -> Fallible<Words> {
        let held = self.shared.lock()?;
        let [jobs, arcs, _, queue, workers] = held.graph.words().map(<[u32]>::to_vec);
        Ok(Words { jobs, arcs, queue, workers })
    }
}
