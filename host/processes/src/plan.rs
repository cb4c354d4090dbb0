//! The jobs that the workers add: 4,096 with 32,768 listed names, the same in each process by the seed; which of them fail;
//! and the minutes that each process loads.

use std::collections::HashMap;

use compare_sheets::{minute_values, random::Random};
use taskgraph::{raw::MAX_NAMES, Job};

use crate::shared::{ARCS, JOBS, WORKERS};

/// Who loads minutes before the workers start.
pub const FIRST_LOADER: usize = WORKERS;

/// Most prerequisites lie at most so many jobs back.
const NEAR: usize = 200;

/// So many of the later half of the jobs fail by themselves. Most jobs after the first of them rest on it.
const FAILING: usize = 8;

pub struct Plan {
    seed: u64,
    /// The prerequisites of each job, which have lower numbers.
    pub lists: Vec<Vec<usize>>,
    names: Vec<u32>,
    classes: Vec<u32>,
    numbers: HashMap<u32, usize>,
    /// The jobs that have a prerequisite that fails, and those that fail.
    spoiled: Vec<bool>,
    failed: Vec<bool>,
}

impl Plan {
    pub fn new(seed: u64) -> Plan {
        let mut random = Random::new(seed, "the plan of the processes");
        let mut lists = vec![Vec::new(); JOBS];
        let mut listed = 0;
        while listed < ARCS {
            let job = 1 + random.below(JOBS - 1);
            let near = if random.once_in(10) { job } else { job.min(NEAR) };
            let prerequisite = job - 1 - random.below(near);
            if lists[job].len() < MAX_NAMES && !lists[job].contains(&prerequisite) {
                lists[job].push(prerequisite);
                listed += 1;
            }
        }
        // An odd factor gives each number a name of its own.
        let start = random.word();
        let names: Vec<u32> = (0..JOBS as u32).map(|job| job.wrapping_mul(0x9e37_79b1).wrapping_add(start)).collect();
        let numbers = names.iter().copied().zip(0..).collect();
        let classes = (0..JOBS).map(|_| random.below(16) as u32).collect();
        let failing: Vec<usize> = (0..FAILING).map(|_| JOBS / 2 + random.below(JOBS / 2)).collect();
        let (mut spoiled, mut failed): (Vec<bool>, Vec<bool>) = Default::default();
        for (job, list) in lists.iter().enumerate() {
            spoiled.push(list.iter().any(|prerequisite| failed[*prerequisite]));
            failed.push(spoiled[job] || failing.contains(&job));
        }
        Plan { seed, lists, names, classes, numbers, spoiled, failed }
    }

    /// Whether a job has a prerequisite that fails.
    pub fn is_spoiled(&self, number: usize) -> bool {
        self.spoiled[number]
    }

    /// Whether a job fails, by itself or since it is spoiled.
    pub fn fails(&self, number: usize) -> bool {
        self.failed[number]
    }

    /// The minutes that a worker, or `FIRST_LOADER`, loads.
    pub fn minutes(&self, loader: usize) -> Vec<u32> {
        minute_values::right(&mut Random::nth(self.seed, "the minutes of the processes", loader as u64))
    }

    /// The number of the job of a name, if it is one of the plan's.
    pub fn number(&self, name: u32) -> Option<usize> {
        self.numbers.get(&name).copied()
    }

    pub fn class(&self, number: usize) -> u32 {
        self.classes[number]
    }

    pub fn job(&self, number: usize) -> Job {
        let prerequisites = self.lists[number].iter().map(|listed| self.names[*listed]).collect();
        Job { name: self.names[number], prerequisites, class: self.classes[number], grower: number as u32 }
    }
}
