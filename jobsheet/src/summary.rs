//! What a sheet comes to: jobs, arcs, classes, minutes, the longest chain, and who waits for whom.

use std::collections::BTreeMap;

use taskgraph::{minutes, room_of_sheet, write_sheet, Job, Room};

use crate::{judge::Judged, picture::Node, Sheet};

/// A class that occurs.
#[derive(Clone, Copy, Debug, Default, PartialEq, Eq)]
pub struct OfClass {
    /// Its jobs.
    pub jobs: usize,
    /// Their minutes, by the fixed ones.
    pub minutes: u32,
}

/// The jobs of a grower that need jobs of another: each with its name and theirs.
pub type Waits = Vec<(u32, Vec<u32>)>;

/// Jobs of which each needs the one before it.
#[derive(Clone, Debug, Default, PartialEq, Eq)]
pub struct Chain {
    /// Their names.
    pub jobs: Vec<u32>,
    /// Their minutes together.
    pub minutes: u32,
}

/// What a sheet comes to.
#[derive(Clone, Debug, PartialEq, Eq)]
pub struct Summary {
    /// The jobs that entered, as the board counts them.
    pub jobs: u32,
    /// The names of all their lists together, as the library counts them.
    pub arcs: u32,
    /// The classes that occur.
    pub classes: BTreeMap<u32, OfClass>,
    /// The minutes of all jobs, as the board sums them.
    pub minutes: u32,
    /// A chain of most jobs, and of those one of most minutes.
    pub longest: Chain,
    /// A chain of most minutes.
    pub slowest: Chain,
    /// Who waits for whom: a grower, and one whose jobs it needs.
    pub waits: BTreeMap<(u32, u32), Waits>,
}

impl Summary {
    /// What the sheet's accepted jobs come to. A chain, and what is waited for, may lead to jobs that were there
    /// before.
    pub fn of(judged: &Judged) -> Summary {
        let own = judged.own();
        Summary {
            jobs: judged.sum.jobs,
            arcs: arcs(&judged.nodes) - arcs(&judged.nodes[..judged.before]),
            classes: classes(own),
            minutes: judged.sum.minutes,
            longest: chain(judged, |node, minutes| (node.depth, minutes)),
            slowest: chain(judged, |_, minutes| minutes),
            waits: waits(judged),
        }
    }
}

/// The arcs of jobs that entered, one after another.
fn arcs(nodes: &[Node]) -> u32 {
    let job = |node: &Node| {
        let prerequisites = node.needs.iter().map(|place| nodes[*place].name).collect();
        Job { name: node.name, prerequisites, class: node.class, grower: node.grower }
    };
    let jobs: Vec<Job> = nodes.iter().map(job).collect();
    let sheet = write_sheet(&jobs).expect("a job that entered can be written");
    room_of_sheet(&sheet).expect("what entered a graph enters the greatest").arcs
}

/// The room that the jobs of `before` and of the sheet need together, where every entry of all can be packed and is
/// accepted, given the room.
pub fn room(before: &[Job], sheet: &Sheet) -> Option<Room> {
    let before = write_sheet(before).ok()?;
    room_of_sheet(&[before, sheet.packed()?].concat()).ok()
}

fn classes(nodes: &[Node]) -> BTreeMap<u32, OfClass> {
    let mut classes: BTreeMap<u32, OfClass> = BTreeMap::new();
    for node in nodes {
        let class = classes.entry(node.class).or_default();
        class.jobs += 1;
        class.minutes += minutes(node.class);
    }
    classes
}

/// A chain that ends with a job of the sheet and weighs most, where the weight of a chain rises along it and is told by
/// its last job and its minutes. Of several it is the one that comes first.
fn chain<W: Ord + Copy>(judged: &Judged, weight: impl Fn(&Node, u32) -> W) -> Chain {
    // The heaviest chain to each job: its weight, its minutes, and the job before.
    let mut best: Vec<(W, u32, Option<usize>)> = Vec::with_capacity(judged.nodes.len());
    for node in &judged.nodes {
        let before =
            node.needs.iter().copied().reduce(|one, other| if best[other].0 > best[one].0 { other } else { one });
        let minutes = minutes(node.class) + before.map_or(0, |place| best[place].1);
        best.push((weight(node, minutes), minutes, before));
    }
    let own = judged.before..judged.nodes.len();
    let last = own.reduce(|one, other| if best[other].0 > best[one].0 { other } else { one });
    let places = std::iter::successors(last, |place| best[*place].2);
    let mut jobs: Vec<u32> = places.map(|place| judged.nodes[place].name).collect();
    jobs.reverse();
    Chain { jobs, minutes: last.map_or(0, |place| best[place].1) }
}

fn waits(judged: &Judged) -> BTreeMap<(u32, u32), Waits> {
    let mut waits: BTreeMap<(u32, u32), Waits> = BTreeMap::new();
    for node in judged.own() {
        let mut needed: BTreeMap<u32, Vec<u32>> = BTreeMap::new();
        for other in node.needs.iter().map(|place| &judged.nodes[*place]) {
            needed.entry(other.grower).or_default().push(other.name);
        }
        for (grower, names) in needed {
            waits.entry((node.grower, grower)).or_default().push((node.name, names));
        }
    }
    waits
}
