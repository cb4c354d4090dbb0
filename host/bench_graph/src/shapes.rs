//! The graphs that are built and drained.

use compare_sheets::random::Random;
use taskgraph::raw::{Entry, Sizes, MAX_NAMES};

/// The seed of random lists and classes.
pub const SEED: u64 = 1993;

/// The number of classes.
pub const CLASSES: usize = 16;

pub struct Shape {
    pub name: String,
    /// The prerequisites of each job, which come before it.
    pub lists: Vec<Vec<usize>>,
    pub entries: Vec<Entry>,
    /// The entries as the rows of a sheet.
    pub rows: Vec<u32>,
}

impl Shape {
    fn new(name: &str, lists: Vec<Vec<usize>>, mut class: impl FnMut(usize) -> usize) -> Shape {
        let name = format!("{name}, {} jobs, {} arcs", lists.len(), lists.iter().map(Vec::len).sum::<usize>());
        let entries: Vec<Entry> = lists.iter().enumerate().map(|(job, list)| entry(job, list, class(job))).collect();
        let rows = entries.iter().flat_map(|entry| entry.to_row()).collect();
        Shape { name, lists, entries, rows }
    }

    pub fn arcs(&self) -> usize {
        self.lists.iter().map(Vec::len).sum()
    }

    /// Sizes that just hold it, for one worker.
    pub fn sizes(&self, bits: u32) -> Sizes {
        Sizes { jobs: self.lists.len() as u32, arcs: self.arcs() as u32, bits, workers: 1 }
    }

    /// A line for each job: its prerequisites.
    pub fn text(&self) -> String {
        let line = |list: &Vec<usize>| list.iter().map(usize::to_string).collect::<Vec<_>>().join(" ") + "\n";
        self.lists.iter().map(line).collect()
    }
}

/// The name of a job: far from its number, as names are.
pub fn name(job: usize) -> u32 {
    (job as u32).wrapping_mul(0x85eb_ca6b).wrapping_add(0x1234_5678)
}

/// The entry of a job with these prerequisites.
pub fn entry(job: usize, list: &[usize], class: usize) -> Entry {
    let mut names = [0; MAX_NAMES];
    names.iter_mut().zip(list).for_each(|(listed, prerequisite)| *listed = name(*prerequisite));
    Entry { name: name(job), count: list.len() as u32, class: class as u32, grower: 0, names }
}

/// The class of a job where classes follow one another.
fn in_turn(job: usize) -> usize {
    job % CLASSES
}

/// Each job needs so many of the jobs before it, of late ones more often. Its class is random.
pub fn random(jobs: usize, longest: usize) -> Shape {
    let mut random = Random::new(SEED, "the random shape");
    let mut classes = Random::new(SEED, "the classes of the random shape");
    let list = |job: usize| {
        let mut list = Vec::new();
        while list.len() < longest.min(job) {
            let near = if random.once_in(4) { job } else { job.min(4 * longest) };
            let prerequisite = job - 1 - random.below(near);
            if !list.contains(&prerequisite) {
                list.push(prerequisite);
            }
        }
        list
    };
    Shape::new("random", (0..jobs).map(list).collect(), |_| classes.below(CLASSES))
}

/// Each job needs the one before.
pub fn chain(jobs: usize) -> Shape {
    Shape::new("chain", (0..jobs).map(|job| job.checked_sub(1).into_iter().collect()).collect(), in_turn)
}

/// A job, as many as a list takes that need it, a job that needs all these, and so on.
pub fn fans(jobs: usize) -> Shape {
    let list = |job: usize| match (job / (MAX_NAMES + 1), job % (MAX_NAMES + 1)) {
        (0, 0) => Vec::new(),
        (fan, 0) => ((fan - 1) * (MAX_NAMES + 1) + 1..job).collect(),
        (fan, _) => vec![fan * (MAX_NAMES + 1)],
    };
    Shape::new("fans", (0..jobs).map(list).collect(), in_turn)
}

/// A square in which each job needs its left and its upper neighbour.
pub fn grid(side: usize) -> Shape {
    let list = |job: usize| {
        let left = (job % side > 0).then(|| job - 1);
        let upper = job.checked_sub(side);
        left.into_iter().chain(upper).collect()
    };
    Shape::new("grid", (0..side * side).map(list).collect(), in_turn)
}
