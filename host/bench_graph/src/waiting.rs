//! Single calls over graphs whose jobs wait: a get, the settling step of an add, and the step of a finish for an arc
//! whose dependent is queued. Classes are random, so that a place goes some way in the index.

use std::time::Instant;

use bench_graph::{
    calls::{add_rows, Arena, Calls, FirstIn, Proved, Unproved},
    shapes::{self, CLASSES, SEED},
};
use compare_sheets::random::Random;
use taskgraph::raw::{kind, Entry, Sizes, Tables, GOOD};

/// The jobs of a graph. All wait as a get is called; settling, and the arc's step, queue the last that does not wait yet,
/// and the arc's step leaves one finished.
pub const JOBS: [usize; 3] = [16, 256, 4_096];

/// So many graphs, with classes of their own, are taken one after another.
pub const GRAPHS: usize = 32;

/// The best of so many rounds counts.
const ROUNDS: usize = 200;

#[derive(Clone, Copy)]
pub enum Call {
    Get,
    Settling,
    Arc,
}

impl Call {
    pub const ALL: [Call; 3] = [Call::Get, Call::Settling, Call::Arc];

    pub fn name(self) -> &'static str {
        match self {
            Call::Get => "get",
            Call::Settling => "settling",
            Call::Arc => "arc's step",
        }
    }

    /// The call itself, by worker 0.
    fn make<C: Calls>(self, sizes: Sizes, tables: &mut Tables) {
        match self {
            Call::Get => assert_eq!(C::get(sizes, tables, 0).kind, kind::HANDED_OUT),
            Call::Settling | Call::Arc => assert_eq!(C::step(sizes, tables, 0).kind, kind::ENDED),
        }
    }

    /// A graph of these jobs, up to the call.
    fn prepare<C: Calls>(self, sizes: Sizes, tables: &mut Tables, entries: &[Entry]) {
        assert_eq!(C::lay_out(sizes, tables).kind, kind::LAID_OUT);
        let rows: Vec<u32> = entries.iter().flat_map(|entry| entry.to_row()).collect();
        let (first, rest) = rows.split_at(rows.len() / entries.len());
        match self {
            Call::Get => drop(add_rows::<C>(sizes, tables, &rows)),
            Call::Settling => {
                add_rows::<C>(sizes, tables, rest);
                assert_eq!(C::post_add(sizes, tables, 0, entries[0]).kind, kind::POSTED);
                assert_eq!(C::step(sizes, tables, 0).kind, kind::GOING_ON);
            }
            Call::Arc => {
                add_rows::<C>(sizes, tables, first);
                assert_eq!(C::get(sizes, tables, 0).kind, kind::HANDED_OUT);
                add_rows::<C>(sizes, tables, rest);
                assert_eq!(C::post_finish(sizes, tables, 0, entries[0].name, GOOD).kind, kind::POSTED);
                assert_eq!(C::step(sizes, tables, 0).kind, kind::GOING_ON);
            }
        }
    }
}

/// The graphs up to one call, and their sizes.
#[derive(Clone)]
pub struct Prepared {
    call: Call,
    sizes: Sizes,
    graphs: Vec<Arena>,
}

impl Prepared {
    pub fn new<C: Calls>(call: Call, jobs: usize) -> Prepared {
        let sizes = Sizes { jobs: jobs as u32, arcs: 1, bits: 8, workers: 1 };
        let graph = |number: usize| {
            let mut classes = Random::nth(SEED, "the classes of waiting jobs", number as u64);
            let entry = |job: usize| shapes::entry(job, list(call, job), classes.below(CLASSES));
            let entries: Vec<Entry> = (0..jobs).map(entry).collect();
            let mut arena = Arena::new(sizes);
            call.prepare::<C>(sizes, &mut arena.lent(), &entries);
            arena
        };
        Prepared { call, sizes, graphs: (0..GRAPHS).map(graph).collect() }
    }

    /// The call, once for each graph, which it uses up.
    pub fn make<C: Calls>(&mut self) {
        for graph in &mut self.graphs {
            self.call.make::<C>(self.sizes, &mut graph.lent());
        }
    }

    /// Nanoseconds of one call, the graphs taken in turn.
    fn time<C: Calls>(&mut self, from: &Prepared) -> f64 {
        self.graphs.iter_mut().zip(&from.graphs).for_each(|(graph, from)| graph.restore(from));
        let start = Instant::now();
        self.make::<C>();
        start.elapsed().as_nanos() as f64 / GRAPHS as f64
    }
}

/// Nanoseconds of one call by the library, by unproved Rust and by that without the index.
pub fn measure(call: Call, jobs: usize) -> [f64; 3] {
    let from = [
        Prepared::new::<Proved>(call, jobs),
        Prepared::new::<Unproved>(call, jobs),
        Prepared::new::<FirstIn>(call, jobs),
    ];
    let mut used = from.clone();
    let mut best = [f64::INFINITY; 3];
    for _ in 0..ROUNDS {
        let [library, unproved, first_in] = &mut used;
        let times =
            [library.time::<Proved>(&from[0]), unproved.time::<Unproved>(&from[1]), first_in.time::<FirstIn>(&from[2])];
        best.iter_mut().zip(times).for_each(|(best, time)| *best = best.min(time));
    }
    best
}

/// What a job needs: nothing, but for the dependent of an arc.
fn list(call: Call, job: usize) -> &'static [usize] {
    match (call, job) {
        (Call::Arc, 1) => &[0],
        _ => &[],
    }
}
