//! The speed of the task graph.
//!
//! Without arguments: nanoseconds a job for building and draining graphs of several shapes, by single calls, by whole
//! calls and by sheets, with the proved library through C and the same rules in unproved Rust, and with oneTBB's flow
//! graph and Python's graphlib, all in this run and with one thread each. A peer that is not there is named and left
//! out. Then nanoseconds of a get, and of the steps that queue a job, by the number of jobs that wait. Then the
//! instructions of the library and of unproved Rust, counted; it fails where the library takes more than it may. The
//! same rules without the index, first in, first out, are counted beside them and not judged: what the index costs.
//!
//! With the arguments `count`, a side, a manner and a shape's name, or a side, a call and a number of jobs: builds and
//! drains that graph once, or makes that call, for callgrind to count.
//!
//! With the argument `steps`: nanoseconds a step by the numbers of jobs and of bucket bits, as a table that
//! scripts/plot-steps draws. With the argument `longest`: how long a call holds the lock at most.

mod longest;
mod peers;
mod waiting;

use std::{env, process::ExitCode, thread, time::Instant};

use bench_graph::{
    calls::{build, drain, Arena, Calls, FirstIn, Manner, Proved, Unproved},
    shapes::{self, Shape},
};
use counting::{Row, Table};
use peers::Peer;
use taskgraph::raw::Sizes;

/// Rounds of a graph of 4,096 jobs. The two implementations take turns; the best round of each counts.
const ROUNDS: usize = 100;

/// After so many rounds it is the peers' turn, and then all begin again: a machine has slow seconds.
const TURNS: usize = 3;

/// The most instructions that the library may take by single calls, as a multiple of unproved Rust's (docs/SPEED.md).
const MOST: f64 = 1.2;

/// The same by whole calls and by sheets.
const MOST_WHOLE: f64 = 1.25;

/// The same of a get and of the steps that queue a job, each by itself.
const MOST_STEP: f64 = 1.4;

/// The most instructions by whole calls and by sheets, as a multiple of the library's own by single calls.
const MOST_OF_SINGLE: f64 = 0.6;

/// Whose calls are counted and timed; the second is what the library is judged beside, the third is only shown.
const SIDES: [&str; 3] = [Proved::NAME, Unproved::NAME, FirstIn::NAME];

const UNPROVED: usize = 1;
const FIRST_IN: usize = 2;

const BITS: u32 = 8;

fn main() -> ExitCode {
    let arguments: Vec<String> = env::args().skip(1).collect();
    match arguments.iter().map(String::as_str).collect::<Vec<_>>()[..] {
        [] => beside_others(),
        ["count", Proved::NAME, what, name] => count::<Proved>(what, name),
        ["count", Unproved::NAME, what, name] => count::<Unproved>(what, name),
        ["count", FirstIn::NAME, what, name] => count::<FirstIn>(what, name),
        ["steps"] => steps(),
        ["longest"] => longest::print(),
        _ => {
            eprintln!("usage: bench_graph [count SIDE MANNER SHAPE | count SIDE CALL JOBS | steps | longest]");
            ExitCode::FAILURE
        }
    }
}

fn all_shapes() -> [Shape; 5] {
    [shapes::random(4_096, 8), shapes::chain(4_096), shapes::fans(4_096), shapes::grid(64), shapes::random(256, 4)]
}

// ---- beside others

fn beside_others() -> ExitCode {
    println!("Building and draining a graph, in ns a job, the best of several rounds, one thread each.");
    let peers = peers::all();
    for peer in &peers {
        if let Err(why) = &peer.command {
            println!("left out: {} ({why})", peer.name);
        }
    }
    println!("Lists of the random shapes, and classes where many jobs wait, are by seed {}.", shapes::SEED);
    let measured = Measured {
        shapes: all_shapes().iter().map(|shape| taken_by_shape(shape, &peers)).collect(),
        waiting: taken_waiting(),
    };
    let mut tables = measured.beside(UNPROVED, [Some(MOST), Some(MOST_WHOLE), Some(MOST_STEP)]);
    tables.extend([Manner::Whole, Manner::Sheets].map(|manner| measured.beside_single(manner)));
    tables.extend(measured.beside(FIRST_IN, [None; 3]));
    counting::judge(&tables)
}

/// What the shapes take, by each manner, and what single calls take where jobs wait.
struct Measured {
    shapes: Vec<[Taken; 3]>,
    waiting: Vec<Taken>,
}

impl Measured {
    fn by(&self, manner: Manner) -> impl Iterator<Item = &Taken> {
        self.shapes.iter().map(move |taken| &taken[manner as usize])
    }

    /// The library beside another side, with limits by single calls, by whole calls and sheets, and of single steps.
    fn beside(&self, other: usize, [single, whole, step]: [Option<f64>; 3]) -> Vec<Table> {
        let table = |title, rows| Table { title, library: Proved::NAME, other: SIDES[other], rows };
        let of_manner = |manner: Manner| {
            let most = if manner == Manner::Single { single } else { whole };
            table(manner.name(), self.by(manner).map(|taken| taken.beside(other, most)).collect())
        };
        let waiting = table("get and settling", self.waiting.iter().map(|taken| taken.beside(other, step)).collect());
        Manner::ALL.into_iter().map(of_manner).chain([waiting]).collect()
    }

    /// The library by whole calls or sheets beside itself by single calls.
    fn beside_single(&self, manner: Manner) -> Table {
        let pairs = self.by(manner).zip(self.by(Manner::Single));
        Table {
            title: "beside single calls",
            library: manner.name(),
            other: Manner::Single.name(),
            rows: pairs.map(|(taken, single)| taken.beside_single(single)).collect(),
        }
    }
}

/// What each of `SIDES` takes for the same: nanoseconds, and instructions.
struct Taken {
    name: String,
    times: [f64; 3],
    counts: [u64; 3],
}

impl Taken {
    fn new(what: &str, argument: &str, name: String, times: [f64; 3]) -> Taken {
        // Side by side: what else runs does not change a count.
        let counts = thread::scope(|scope| {
            SIDES
                .map(|side| scope.spawn(move || counting::instructions(&["count", side, what, argument])))
                .map(|counting| counting.join().expect("a side is counted"))
        });
        Taken { name, times, counts }
    }

    /// The library beside another side.
    fn beside(&self, other: usize, most: Option<f64>) -> Row {
        Row {
            name: self.name.clone(),
            library: self.counts[0],
            other: self.counts[other],
            most,
            time: self.times[0] / self.times[other],
        }
    }

    /// The library beside itself by single calls.
    fn beside_single(&self, single: &Taken) -> Row {
        Row {
            name: self.name.clone(),
            library: self.counts[0],
            other: single.counts[0],
            most: Some(MOST_OF_SINGLE),
            time: self.times[0] / single.times[0],
        }
    }
}

/// What a shape takes by each manner.
fn taken_by_shape(shape: &Shape, peers: &[Peer]) -> [Taken; 3] {
    let times = measure(shape, peers);
    Manner::ALL.map(|manner| Taken::new(manner.name(), &shape.name, shape.name.clone(), times[manner as usize]))
}

/// What a get and the steps that queue a job take.
fn taken_waiting() -> Vec<Taken> {
    println!(
        "A get, an add's settling and an arc's step that queues, in ns a call; each over {} graphs.",
        waiting::GRAPHS
    );
    println!("  {:<30} {:>14} {:>14} {:>14}", "", SIDES[0], SIDES[1], SIDES[2]);
    let mut all = Vec::new();
    for call in waiting::Call::ALL {
        for jobs in waiting::JOBS {
            let name = format!("{}, {jobs} jobs", call.name());
            let times = waiting::measure(call, jobs);
            println!("  {name:<30} {:14.0} {:14.0} {:14.0}", times[0], times[1], times[2]);
            all.push(Taken::new(call.name(), &jobs.to_string(), name, times));
        }
    }
    all
}

/// Builds and drains a graph once, or makes a call over each of the waiting graphs, for callgrind to count.
fn count<C: Calls>(what: &str, name: &str) -> ExitCode {
    if let Some(manner) = Manner::ALL.into_iter().find(|known| known.name() == what) {
        count_shape::<C>(manner, name);
    } else {
        let call = waiting::Call::ALL.into_iter().find(|known| known.name() == what);
        let jobs = name.parse().expect("a number of jobs");
        let mut prepared = waiting::Prepared::new::<C>(call.expect("the name of a manner or a call"), jobs);
        counting::counted(&mut || prepared.make::<C>());
    }
    ExitCode::SUCCESS
}

fn count_shape<C: Calls>(manner: Manner, shape: &str) {
    let shape = all_shapes().into_iter().find(|known| known.name == shape).expect("the name of a shape");
    let sizes = shape.sizes(BITS);
    let mut arena = Arena::new(sizes);
    let mut tables = arena.lent();
    counting::counted(&mut || {
        build::<C>(manner, sizes, &mut tables, &shape);
        drain::<C>(manner, sizes, &mut tables);
    });
}

/// Of each manner, in the order of `Manner::ALL`, nanoseconds a job of each of `SIDES`.
type Times = [[f64; 3]; 3];

/// Prints the times of a shape, and gives those of the library and of unproved Rust.
fn measure(shape: &Shape, peers: &[Peer]) -> Times {
    println!("{}", shape.name);
    let sizes = shape.sizes(BITS);
    let mut arena = Arena::new(sizes);
    let mut times = [[f64::INFINITY; 3]; 3];
    let mut theirs: Vec<Option<Result<f64, String>>> = vec![None; peers.len()];
    let jobs = shape.lists.len() as f64;
    for _ in 0..TURNS {
        for _ in 0..rounds(ROUNDS, shape) {
            for (manner, best) in Manner::ALL.into_iter().zip(&mut times) {
                let rounds = [round::<Proved>, round::<Unproved>, round::<FirstIn>];
                for (best, round) in best.iter_mut().zip(rounds) {
                    *best = best.min(round(manner, sizes, &mut arena, shape).total() / jobs);
                }
            }
        }
        for (peer, best) in peers.iter().zip(&mut theirs) {
            *best = better(best.take(), peer.nanoseconds_a_job(shape));
        }
    }
    print_times(times, peers, &theirs);
    times
}

fn print_times(times: Times, peers: &[Peer], theirs: &[Option<Result<f64, String>>]) {
    let single = times[Manner::Single as usize][0];
    let by_place = peers.iter().zip(theirs).find_map(|(peer, best)| match best {
        Some(Ok(time)) if peer.name == peers::BY_PLACE => Some(*time),
        _ => None,
    });
    println!("  {:<30} {:>8} {:>14} {:>16} {:>13}", "", "ns a job", "single calls", peers::BY_PLACE, Unproved::NAME);
    let line = |name: &str, time: f64, unproved: Option<f64>| {
        let times_of = |other: Option<f64>| other.map_or("-".into(), |other| format!("{:.2}", time / other));
        let [of_single, of_peer, of_unproved] = [Some(single), by_place, unproved].map(times_of);
        println!("  {name:<30} {time:8.0} {of_single:>14} {of_peer:>16} {of_unproved:>13}");
    };
    for (manner, times) in Manner::ALL.into_iter().zip(times) {
        line(&format!("{}, {}", Proved::NAME, manner.name()), times[0], Some(times[UNPROVED]));
        line(&format!("{}, {}", Unproved::NAME, manner.name()), times[UNPROVED], None);
    }
    for (peer, best) in peers.iter().zip(theirs) {
        match best {
            None => {}
            Some(Ok(time)) => line(peer.name, *time, None),
            Some(Err(error)) => println!("  {:<30} failed: {error}", peer.name),
        }
    }
}

/// So many rounds of a graph of 4,096 jobs, and of a smaller one as many as fill about that time.
fn rounds(of_large: usize, shape: &Shape) -> usize {
    of_large * 4_096 / shape.lists.len()
}

/// The better of two times; a failure stays.
fn better(best: Option<Result<f64, String>>, time: Option<Result<f64, String>>) -> Option<Result<f64, String>> {
    match (best, time) {
        (Some(Ok(best)), Some(Ok(time))) => Some(Ok(best.min(time))),
        (Some(Err(error)), _) => Some(Err(error)),
        (_, time) => time,
    }
}

/// The times of one round in nanoseconds, and its calls.
#[derive(Clone, Copy)]
struct Round {
    building: f64,
    build_calls: usize,
    draining: f64,
    drain_calls: usize,
}

impl Round {
    fn total(&self) -> f64 {
        self.building + self.draining
    }
}

fn round<C: Calls>(manner: Manner, sizes: Sizes, arena: &mut Arena, shape: &Shape) -> Round {
    let mut tables = arena.lent();
    let start = Instant::now();
    let build_calls = build::<C>(manner, sizes, &mut tables, shape);
    let built = Instant::now();
    let (jobs, drain_calls) = drain::<C>(manner, sizes, &mut tables);
    let drained = Instant::now();
    assert_eq!(jobs, shape.lists.len(), "all jobs were handed out");
    Round {
        building: (built - start).as_nanos() as f64,
        build_calls,
        draining: (drained - built).as_nanos() as f64,
        drain_calls,
    }
}

// ---- steps

/// Rounds of a graph of 4,096 jobs whose steps are timed: with one bucket bit a round takes long.
const STEPS_ROUNDS: usize = 60;

/// The longest lists of the graphs whose steps are timed.
const STEPS_LONGEST: usize = 4;

fn steps() -> ExitCode {
    println!("# ns a step, the best of several rounds: jobs, bits, adding and draining with the library,");
    println!("# adding and draining with unproved Rust");
    for jobs in [16, 256, 4_096] {
        let shape = shapes::random(jobs, STEPS_LONGEST);
        for bits in [1, 4, 8] {
            let [proved, unproved] = a_step(&shape, bits);
            println!("{jobs} {bits} {:.1} {:.1} {:.1} {:.1}", proved.0, proved.1, unproved.0, unproved.1);
        }
    }
    ExitCode::SUCCESS
}

/// Nanoseconds a step for adding and for draining, with the library and with unproved Rust.
fn a_step(shape: &Shape, bits: u32) -> [(f64, f64); 2] {
    let sizes = shape.sizes(bits);
    let mut arena = Arena::new(sizes);
    let mut best = [(f64::INFINITY, f64::INFINITY); 2];
    for _ in 0..rounds(STEPS_ROUNDS, shape) {
        let manner = Manner::Single;
        let taken =
            [round::<Proved>(manner, sizes, &mut arena, shape), round::<Unproved>(manner, sizes, &mut arena, shape)];
        for (best, taken) in best.iter_mut().zip(taken) {
            best.0 = best.0.min(taken.building / taken.build_calls as f64);
            best.1 = best.1.min(taken.draining / taken.drain_calls as f64);
        }
    }
    best
}
