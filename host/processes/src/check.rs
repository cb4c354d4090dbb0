//! What the logs and the tables must say after a run.

use std::{cmp::Reverse, collections::BTreeMap};

use compare_graph::layout::{job, job_at, phase, worker, JOB_WORDS, MADE, PUT, RESERVED, TAKEN, WORKER_WORDS};
use taskgraph::{Totals, CLASSES};

use crate::{
    log::Line,
    plan::Plan,
    shared::{ARCS, JOBS, WORKERS},
};

/// What the logs say of a job.
#[derive(Clone, Copy, Debug, Default)]
struct Record {
    added: bool,
    start: Option<u32>,
    end: Option<u32>,
    finished: bool,
}

/// The tables after a run, copied.
pub struct Words {
    pub jobs: Vec<u32>,
    pub arcs: Vec<u32>,
    pub queue: Vec<u32>,
    pub workers: Vec<u32>,
}

const FINISHED: u32 = 2;

pub struct Check<'a> {
    plan: &'a Plan,
    records: Vec<Record>,
    /// The job of each place of the queue.
    queued: BTreeMap<usize, usize>,
    /// The job of each hand-out, and how many had been put in the queue before it.
    handed_out: BTreeMap<usize, (usize, usize)>,
    /// The loads that were taken, and those that were refused since a job had entered.
    loads: [usize; 2],
    /// The finishes as good of spoiled jobs that were turned away.
    turned_away: usize,
}

impl<'a> Check<'a> {
    /// Reads the logs; a job started twice is a fault.
    pub fn new(plan: &'a Plan, logs: &[String]) -> Result<Check<'a>, String> {
        let mut check = Check {
            plan,
            records: vec![Record::default(); JOBS],
            queued: BTreeMap::new(),
            handed_out: BTreeMap::new(),
            loads: [0; 2],
            turned_away: 0,
        };
        for line in logs.iter().flat_map(|log| log.lines()) {
            check.take(line.parse()?)?;
        }
        Ok(check)
    }

    fn job_of(&self, name: u32) -> Result<usize, String> {
        self.plan.number(name).ok_or_else(|| format!("no job has the name {name}"))
    }

    fn record(&mut self, name: u32) -> Result<&mut Record, String> {
        let job = self.job_of(name)?;
        Ok(&mut self.records[job])
    }

    fn take(&mut self, line: Line) -> Result<(), String> {
        match line {
            Line::Added { job } => self.records[job].added = true,
            Line::Queued { name, place } => {
                let job = self.job_of(name)?;
                note(&mut self.queued, place, job)?;
            }
            Line::HandedOut { name, spoiled, taken, put } => {
                let job = self.job_of(name)?;
                if spoiled != self.plan.is_spoiled(job) {
                    return Err(format!("job {job} was told to be spoiled: {spoiled}"));
                }
                note(&mut self.handed_out, taken, (job, put))?;
            }
            Line::Start { name, ticket } => {
                if self.record(name)?.start.replace(ticket).is_some() {
                    return Err(format!("the job with the name {name} was handed out twice"));
                }
            }
            Line::End { name, ticket } => self.record(name)?.end = Some(ticket),
            Line::TurnedAway { name } => {
                let job = self.job_of(name)?;
                if !self.plan.is_spoiled(job) {
                    return Err(format!("job {job} was turned away as spoiled"));
                }
                self.turned_away += 1;
            }
            Line::Finished { name } => self.record(name)?.finished = true,
            Line::Load { taken } => self.loads[usize::from(!taken)] += 1,
        }
        Ok(())
    }

    /// No job starts before the end of each prerequisite.
    pub fn order(&self) -> Result<(), String> {
        for (job, record) in self.records.iter().enumerate() {
            let start = match record.start {
                Some(start) => start,
                None => continue,
            };
            for prerequisite in &self.plan.lists[job] {
                if self.records[*prerequisite].end.map_or(true, |end| end >= start) {
                    return Err(format!("job {job} started before the end of its prerequisite {prerequisite}"));
                }
            }
        }
        Ok(())
    }

    /// The loads that workers tried: how many were taken, and how many refused since a job had entered. Some must be.
    pub fn loads(&self) -> Result<[usize; 2], String> {
        match self.loads {
            [_, 0] => Err("no load was refused".into()),
            loads => Ok(loads),
        }
    }

    /// How many jobs that were handed out are spoiled, and how many finishes as good of these were turned away. Some must
    /// be, and some jobs not spoiled.
    pub fn spoiled(&self) -> Result<[usize; 2], String> {
        let spoiled = self.handed_out.values().filter(|(job, _)| self.plan.is_spoiled(*job)).count();
        if self.turned_away == 0 || spoiled == self.handed_out.len() {
            return Err(format!("{spoiled} jobs are spoiled, and {} finishes were turned away", self.turned_away));
        }
        Ok([spoiled, self.turned_away])
    }

    /// The board's sums are those of the jobs made, by the minutes that were loaded last.
    pub fn totals(&self, totals: &Totals, words: &Words, minutes: &[u32; CLASSES]) -> Result<(), String> {
        let made = words.jobs[MADE] as usize;
        let class = |number: usize| words.jobs[job_at(number) + job::CLASS] as usize;
        let expected = (made, (0..made).map(|number| minutes[class(number)]).sum::<u32>());
        let sums = [totals.unexecuted, totals.executing, totals.finished];
        let told = (sums.iter().map(|sum| sum.jobs as usize).sum(), sums.iter().map(|sum| sum.minutes).sum());
        if told != expected {
            return Err(format!("the board has {told:?} jobs and minutes, not {expected:?}"));
        }
        Ok(())
    }

    /// Each hand-out is of the heaviest job that waits then, of equal ones of that which entered the queue first. Answers
    /// how many were of jobs that others had waited longer than.
    pub fn hand_outs(&self, minutes: &[u32; CLASSES]) -> Result<usize, String> {
        let complete = self.queued.keys().copied().eq(0..self.queued.len())
            && self.handed_out.keys().copied().eq(0..self.handed_out.len());
        if !complete {
            return Err("the logs lack a place of the queue or a hand-out".into());
        }
        let mut waiting: BTreeMap<usize, usize> = BTreeMap::new();
        let (mut seen, mut overtaking) = (0, 0);
        for (job, put) in self.handed_out.values() {
            waiting.extend((seen..*put).filter_map(|place| Some((place, *self.queued.get(&place)?))));
            seen = *put;
            // Of equal keys the first is taken.
            let due = waiting.iter().min_by_key(|(_, job)| Reverse(minutes[self.plan.class(**job) as usize]));
            let place = match due {
                Some((place, due)) if due == job => *place,
                _ => return Err(format!("job {job} was handed out, and {due:?}, place and job, was due")),
            };
            overtaking += usize::from(waiting.keys().next() != Some(&place));
            waiting.remove(&place);
        }
        Ok(overtaking)
    }

    /// Every job whose add ended, and whose prerequisites' finishes all ended, was finished, save the one
    /// that a killed worker may have held.
    pub fn progress(&self, killed: usize) -> Result<(), String> {
        let unfinished = |job: &usize| {
            let record = &self.records[*job];
            let due = record.added && self.plan.lists[*job].iter().all(|other| self.records[*other].finished);
            !record.finished && (due || record.start.is_some())
        };
        let left: Vec<usize> = (0..JOBS).filter(unfinished).collect();
        if left.len() > killed {
            return Err(format!("jobs {left:?} were ready and are not finished, with {killed} workers killed"));
        }
        Ok(())
    }

    pub fn finished(&self) -> usize {
        self.records.iter().filter(|record| record.finished).count()
    }

    /// The tables beside the logs: classes by name, labels, outcomes and marks, and for a run in which nobody was killed
    /// all of it done.
    pub fn tables(&self, words: &Words, killed: usize) -> Result<(), String> {
        let made = words.jobs[MADE] as usize;
        for number in 0..made.min(JOBS) {
            self.job(&words.jobs[job_at(number)..][..JOB_WORDS], killed)?;
        }
        let idle = words.workers.chunks(WORKER_WORDS).filter(|own| own[worker::PHASE] == phase::IDLE).count();
        if idle + killed < WORKERS {
            return Err(format!("only {idle} workers are idle at the end"));
        }
        let (taken, put) = (words.queue[TAKEN] as usize, words.queue[PUT] as usize);
        let counters = (made, words.arcs[RESERVED] as usize, taken, put);
        if killed == 0 && counters != (JOBS, ARCS, JOBS, JOBS) {
            return Err(format!("jobs made, arcs reserved, taken and put are {counters:?}"));
        }
        if taken != put {
            return Err("jobs still wait in the queue".into());
        }
        if (self.handed_out.len(), self.queued.len()) != (taken, put) {
            return Err("the logs lack a place of the queue or a hand-out".into());
        }
        Ok(())
    }

    /// The words of a job made.
    fn job(&self, record: &[u32], killed: usize) -> Result<(), String> {
        let name = record[job::NAME];
        let number = self.plan.number(name).ok_or_else(|| format!("no job has the name {name}"))?;
        let class = self.plan.class(number);
        if record[job::CLASS] != class || self.records[number].finished && record[job::LABEL] != FINISHED {
            return Err(format!("the words of job {number} are {record:?}"));
        }
        if killed == 0 && (record[job::LABEL], record[job::COUNT]) != (FINISHED, 0) {
            return Err(format!("at the end the words of job {number} are {record:?}"));
        }
        // Once a job was handed out its mark stands; a job that has not ended has no outcome.
        let fails = record[job::LABEL] == FINISHED && self.plan.fails(number);
        let marked =
            self.records[number].start.is_none() || record[job::MARK] == u32::from(self.plan.is_spoiled(number));
        if record[job::OUTCOME] != u32::from(fails) || !marked {
            return Err(format!("by its outcome or mark, the words of job {number} are {record:?}"));
        }
        Ok(())
    }
}

/// Puts a value where none may be yet.
fn note<T>(map: &mut BTreeMap<usize, T>, number: usize, value: T) -> Result<(), String> {
    match map.insert(number, value) {
        None => Ok(()),
        Some(_) => Err(format!("place or hand-out {number} is logged twice")),
    }
}
