//! The task graph (docs/RULES.md, "Tables and their measures", "Steps" and "Turned-away calls"): posts,
//! steps and gets over jobs, arcs, buckets, a queue and workers.
//!
//! The shapes are Rust's own, not tables of words, so nothing here can be damaged (number 9) or too
//! short (the rest of number 1).

mod whole;

use std::cmp::Reverse;

use crate::{
    bucket::bucket,
    minutes::Minutes,
    refusal,
    sheet::{Entry, MAX_CLASS, MAX_GROWER},
    totals::{self, Label, Record, Totals, TotalsError},
};

/// The limits of the sizes.
pub const MAX_JOBS: u32 = 4_096;
pub const MAX_ARCS: u32 = 32_768;
pub const MAX_BITS: u32 = 8;
pub const MAX_WORKERS: u32 = 16;

/// R, A, b and P of docs/RULES.md.
#[derive(Clone, Copy, Debug, PartialEq, Eq)]
pub struct Sizes {
    pub jobs: u32,
    pub arcs: u32,
    pub bits: u32,
    pub workers: u32,
}

impl Sizes {
    pub fn within_limits(&self) -> bool {
        (1..=MAX_JOBS).contains(&self.jobs)
            && self.arcs <= MAX_ARCS
            && (1..=MAX_BITS).contains(&self.bits)
            && (1..=MAX_WORKERS).contains(&self.workers)
    }
}

/// Why a call is turned away: its number, and for number 6 the place in the list (else 0).
#[derive(Clone, Copy, Debug, PartialEq, Eq)]
pub struct Refusal {
    pub number: u32,
    pub place: usize,
}

/// A refusal that says no place.
pub fn refused<T>(number: u32) -> Result<T, Refusal> {
    Err(Refusal { number, place: 0 })
}

/// What a finish brings.
#[derive(Clone, Copy, Debug, PartialEq, Eq)]
pub enum Outcome {
    Good,
    Failed,
}

impl Outcome {
    /// As a host brings it: 0 is good, and any other number failed.
    pub fn of(number: u32) -> Outcome {
        match number {
            0 => Outcome::Good,
            _ => Outcome::Failed,
        }
    }
}

/// What a call that is not turned away answers.
#[derive(Clone, Copy, Debug, PartialEq, Eq)]
pub enum Reply {
    Loaded,
    Posted,
    GoingOn,
    Ended,
    NoneReady,
    HandedOut { job: usize, name: u32, spoiled: bool },
}

pub type Answer = Result<Reply, Refusal>;

pub use whole::{SheetAnswer, MAX_ENTRIES};

/// A job; its number is its place in the order of entering.
#[derive(Clone, Debug)]
pub struct Job {
    pub name: u32,
    pub label: Label,
    /// The remaining count.
    pub count: u32,
    pub class: u32,
    pub grower: u32,
    /// The numbers of its arcs, oldest first.
    pub arcs: Vec<usize>,
    /// What its finish brought, once it is finished.
    pub outcome: Option<Outcome>,
    /// The mark: it has a prerequisite that failed.
    pub spoiled: bool,
}

/// An add half done.
#[derive(Clone, Debug)]
pub struct Add {
    pub name: u32,
    pub list: Vec<u32>,
    pub class: u32,
    pub grower: u32,
    pub stage: AddStage,
}

#[derive(Clone, Copy, Debug, PartialEq, Eq)]
pub enum AddStage {
    /// The name at `place` is looked up next; past the last, the job enters.
    LookingUp { place: usize },
    /// The name at `place` is linked next; past the last, the job settles. `noted` beside the tally: one of those
    /// tallied failed.
    Linking { job: usize, first_arc: usize, place: usize, tally: u32, noted: bool },
}

/// A finish half done.
#[derive(Clone, Copy, Debug, PartialEq, Eq)]
pub enum Finish {
    /// The held job is marked finished next, with this outcome.
    Marking { outcome: Outcome },
    /// The dependent of the arc at place `next` of the job's arcs is told next.
    Notifying { job: usize, outcome: Outcome, next: usize },
}

#[derive(Clone, Debug)]
pub enum Call {
    Add(Add),
    Finish(Finish),
}

#[derive(Clone, Debug, Default)]
pub struct Worker {
    pub held: Option<usize>,
    /// The call half done; an idle worker has none.
    pub call: Option<Call>,
}

/// The kind of a call half done.
#[derive(Clone, Copy, Debug, PartialEq, Eq)]
pub enum HalfDone {
    Nothing,
    /// An add of a job of this name.
    Add {
        name: u32,
    },
    Finish,
}

/// The job that a worker holds.
#[derive(Clone, Copy, Debug, PartialEq, Eq)]
pub struct Held {
    pub job: usize,
    pub name: u32,
    pub spoiled: bool,
}

/// What a worker that restarts is told: the held job, and its call.
#[derive(Clone, Copy, Debug, PartialEq, Eq)]
pub struct Holding {
    pub held: Option<Held>,
    pub call: HalfDone,
}

#[derive(Clone, Debug)]
pub struct Graph {
    sizes: Sizes,
    jobs: Vec<Job>,
    /// The dependent of each arc reserved so far, if it was linked.
    arcs: Vec<Option<usize>>,
    /// The jobs of each bucket, the head last.
    buckets: Vec<Vec<usize>>,
    /// All jobs ever put in the queue, in order; those that are not handed out yet wait.
    queue: Vec<usize>,
    workers: Vec<Worker>,
    minutes: Minutes,
}

impl Graph {
    /// A fresh graph, with the fixed minutes.
    pub fn lay_out(sizes: Sizes) -> Result<Graph, Refusal> {
        if !sizes.within_limits() {
            return refused(refusal::SIZE);
        }
        Ok(Graph {
            sizes,
            jobs: Vec::new(),
            arcs: Vec::new(),
            buckets: vec![Vec::new(); 1 << sizes.bits],
            queue: Vec::new(),
            workers: vec![Worker::default(); sizes.workers as usize],
            minutes: Minutes::FIXED,
        })
    }

    pub fn sizes(&self) -> Sizes {
        self.sizes
    }

    pub fn jobs(&self) -> &[Job] {
        &self.jobs
    }

    /// The dependents of the arcs reserved so far.
    pub fn arcs(&self) -> &[Option<usize>] {
        &self.arcs
    }

    /// The jobs of a bucket, the head first.
    pub fn bucket(&self, number: usize) -> impl Iterator<Item = usize> + '_ {
        self.buckets[number].iter().rev().copied()
    }

    /// All jobs that ever entered the queue, in order.
    pub fn queue(&self) -> &[usize] {
        &self.queue
    }

    /// Whether a job that entered the queue still waits there.
    pub fn waits(&self, job: usize) -> bool {
        self.jobs[job].label == Label::Unexecuted
    }

    pub fn workers(&self) -> &[Worker] {
        &self.workers
    }

    /// The job of a name.
    pub fn find(&self, name: u32) -> Option<usize> {
        self.bucket(bucket(name, self.sizes.bits) as usize).find(|job| self.jobs[*job].name == name)
    }

    /// The minutes that stand in the graph.
    pub fn minutes(&self, sizes: Sizes) -> Result<Minutes, Refusal> {
        if sizes != self.sizes {
            return refused(refusal::SIZE);
        }
        Ok(self.minutes)
    }

    /// The board over the jobs made, by the minutes that stand in the graph.
    pub fn totals(&self, sizes: Sizes) -> Result<Totals, TotalsError> {
        if sizes != self.sizes {
            return Err(TotalsError::Size);
        }
        let record = |job: &Job| Record { label: job.label as u32, class: job.class };
        let records: Vec<Record> = self.jobs.iter().map(record).collect();
        totals::by_minutes(&records, self.minutes.values())
    }

    /// Loads a district's minutes, before the first job enters. It has no worker.
    pub fn load_minutes(&mut self, sizes: Sizes, values: &[u32]) -> Answer {
        if sizes != self.sizes {
            return refused(refusal::SIZE);
        }
        let minutes = match Minutes::of(values) {
            Some(minutes) => minutes,
            None => return refused(refusal::MINUTES),
        };
        if !self.jobs.is_empty() {
            return refused(refusal::ENTERED);
        }
        self.minutes = minutes;
        Ok(Reply::Loaded)
    }

    pub fn post_add(&mut self, sizes: Sizes, worker: u32, entry: &Entry) -> Answer {
        let worker = self.idle_worker(sizes, worker)?;
        let Entry { name, class, grower, .. } = *entry;
        let list = judged_list(entry)?.to_vec();
        let stage = AddStage::LookingUp { place: 0 };
        self.workers[worker].call = Some(Call::Add(Add { name, list, class, grower, stage }));
        Ok(Reply::Posted)
    }

    pub fn post_finish(&mut self, sizes: Sizes, worker: u32, name: u32, outcome: Outcome) -> Answer {
        let worker = self.idle_worker(sizes, worker)?;
        let job = match self.workers[worker].held {
            Some(job) if self.jobs[job].name == name => &self.jobs[job],
            _ => return refused(refusal::NOT_HELD),
        };
        if job.spoiled && outcome == Outcome::Good {
            return refused(refusal::GOOD_FOR_SPOILED);
        }
        self.workers[worker].call = Some(Call::Finish(Finish::Marking { outcome }));
        Ok(Reply::Posted)
    }

    pub fn step(&mut self, sizes: Sizes, worker: u32) -> Answer {
        let worker = self.worker(sizes, worker)?;
        // A refusal leaves the worker idle, so its call is put back only where it goes on.
        let next = match self.workers[worker].call.take() {
            None => return refused(refusal::IDLE),
            Some(Call::Add(add)) => self.step_add(add)?.map(Call::Add),
            Some(Call::Finish(finish)) => self.step_finish(worker, finish).map(Call::Finish),
        };
        let reply = if next.is_some() { Reply::GoingOn } else { Reply::Ended };
        self.workers[worker].call = next;
        Ok(reply)
    }

    pub fn get(&mut self, sizes: Sizes, worker: u32) -> Answer {
        let worker = self.idle_worker(sizes, worker)?;
        if self.workers[worker].held.is_some() {
            return refused(refusal::HOLDING);
        }
        match self.heaviest() {
            None => Ok(Reply::NoneReady),
            Some(job) => {
                self.jobs[job].label = Label::Executing;
                self.workers[worker].held = Some(job);
                Ok(Reply::HandedOut { job, name: self.jobs[job].name, spoiled: self.jobs[job].spoiled })
            }
        }
    }

    /// The waiting job with the most minutes; of equal ones the first that entered the queue.
    pub fn heaviest(&self) -> Option<usize> {
        let waiting = self.queue.iter().copied().filter(|job| self.waits(*job));
        // Of equal keys the first is taken.
        waiting.min_by_key(|job| Reverse(self.minutes.of_class(self.jobs[*job].class)))
    }

    pub fn held(&self, sizes: Sizes, worker: u32) -> Result<Holding, Refusal> {
        let worker = &self.workers[self.worker(sizes, worker)?];
        let call = match &worker.call {
            None => HalfDone::Nothing,
            Some(Call::Add(add)) => HalfDone::Add { name: add.name },
            Some(Call::Finish(_)) => HalfDone::Finish,
        };
        let held = |job: usize| Held { job, name: self.jobs[job].name, spoiled: self.jobs[job].spoiled };
        Ok(Holding { held: worker.held.map(held), call })
    }

    /// Nothing waits, and no worker holds a job or is in a call.
    pub fn drained(&self, sizes: Sizes) -> Result<bool, Refusal> {
        if sizes != self.sizes {
            return refused(refusal::SIZE);
        }
        let at_rest = |worker: &Worker| worker.held.is_none() && worker.call.is_none();
        Ok(self.heaviest().is_none() && self.workers.iter().all(at_rest))
    }

    /// Numbers 1 and 2.
    fn worker(&self, sizes: Sizes, worker: u32) -> Result<usize, Refusal> {
        if sizes != self.sizes {
            return refused(refusal::SIZE);
        }
        if worker >= self.sizes.workers {
            return refused(refusal::WORKER);
        }
        Ok(worker as usize)
    }

    /// Numbers 1, 2 and 3.
    fn idle_worker(&self, sizes: Sizes, worker: u32) -> Result<usize, Refusal> {
        let worker = self.worker(sizes, worker)?;
        if self.workers[worker].call.is_some() {
            return refused(refusal::HALF_DONE);
        }
        Ok(worker)
    }

    /// One step of an add, and what is left of it.
    fn step_add(&mut self, mut add: Add) -> Result<Option<Add>, Refusal> {
        match &mut add.stage {
            AddStage::LookingUp { place } if *place < add.list.len() => {
                if self.find(add.list[*place]).is_none() {
                    return Err(Refusal { number: refusal::UNKNOWN_NAME, place: *place });
                }
                *place += 1;
            }
            AddStage::LookingUp { .. } => {
                let (job, first_arc) = self.enter(&add)?;
                add.stage = AddStage::Linking { job, first_arc, place: 0, tally: 0, noted: false };
            }
            AddStage::Linking { job, first_arc, place, tally, noted } if *place < add.list.len() => {
                if let Some(outcome) = self.link(add.list[*place], *first_arc + *place, *job) {
                    *tally += 1;
                    *noted |= outcome == Outcome::Failed;
                }
                *place += 1;
            }
            AddStage::Linking { job, tally, noted, .. } => {
                self.settle(*job, *tally, *noted, add.list.len());
                return Ok(None);
            }
        }
        Ok(Some(add))
    }

    /// Makes the job of an add and reserves its arcs: the numbers of the job and of the first arc.
    fn enter(&mut self, add: &Add) -> Result<(usize, usize), Refusal> {
        if self.find(add.name).is_some() {
            return refused(refusal::NAME_PRESENT);
        }
        let (job, first_arc) = (self.jobs.len(), self.arcs.len());
        if job == self.sizes.jobs as usize || self.sizes.arcs as usize - first_arc < add.list.len() {
            return refused(refusal::FULL);
        }
        self.arcs.resize(first_arc + add.list.len(), None);
        self.buckets[bucket(add.name, self.sizes.bits) as usize].push(job);
        self.jobs.push(Job {
            name: add.name,
            label: Label::Unexecuted,
            count: add.list.len() as u32,
            class: add.class,
            grower: add.grower,
            arcs: Vec::new(),
            outcome: None,
            spoiled: false,
        });
        Ok((job, first_arc))
    }

    /// The outcome of the job of a listed name, if that is finished; else an arc is appended to it.
    fn link(&mut self, name: u32, arc: usize, dependent: usize) -> Option<Outcome> {
        let prerequisite = self.find(name).expect("a name that was looked up stays");
        let prerequisite = &mut self.jobs[prerequisite];
        if prerequisite.label == Label::Finished {
            return Some(prerequisite.outcome.expect("a finish brings an outcome"));
        }
        prerequisite.arcs.push(arc);
        self.arcs[arc] = Some(dependent);
        None
    }

    fn settle(&mut self, job: usize, tally: u32, noted: bool, listed: usize) {
        self.jobs[job].spoiled |= noted;
        self.jobs[job].count -= tally;
        if self.jobs[job].count == 0 && (tally > 0 || listed == 0) {
            self.queue.push(job);
        }
    }

    /// One step of a finish, and what is left of it.
    fn step_finish(&mut self, worker: usize, finish: Finish) -> Option<Finish> {
        let (job, outcome, next) = match finish {
            Finish::Marking { outcome } => {
                let job = self.workers[worker].held.take().expect("a finish is posted by the holder");
                self.jobs[job].label = Label::Finished;
                self.jobs[job].outcome = Some(outcome);
                (job, outcome, 0)
            }
            Finish::Notifying { job, outcome, next } => {
                self.notify(self.jobs[job].arcs[next], outcome);
                (job, outcome, next + 1)
            }
        };
        (next < self.jobs[job].arcs.len()).then_some(Finish::Notifying { job, outcome, next })
    }

    fn notify(&mut self, arc: usize, outcome: Outcome) {
        let dependent = self.arcs[arc].expect("an arc of a list is linked");
        let job = &mut self.jobs[dependent];
        job.spoiled |= outcome == Outcome::Failed;
        job.count -= 1;
        if job.count == 0 {
            self.queue.push(dependent);
        }
    }
}

/// The list of an add, or number 5.
pub fn judged_list(entry: &Entry) -> Result<&[u32], Refusal> {
    let list = match entry.prerequisites.names.get(..entry.prerequisites.count) {
        Some(list) => list,
        None => return refused(refusal::ARGUMENTS),
    };
    let twice = (1..list.len()).any(|place| list[..place].contains(&list[place]));
    if entry.class > MAX_CLASS || entry.grower > MAX_GROWER || list.contains(&entry.name) || twice {
        return refused(refusal::ARGUMENTS);
    }
    Ok(list)
}

#[cfg(test)]
mod tests;
