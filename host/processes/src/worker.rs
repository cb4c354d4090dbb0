//! A worker process: adds jobs of the plan, takes jobs, works at them and finishes them, and writes to its
//! log what it did. By its number it takes single steps, runs its calls whole, or adds by sheets.

use std::{
    fs::File,
    io::Write,
    path::Path,
    thread,
    time::{Duration, Instant},
};

use compare_sheets::{minute_values, random::Random};
use taskgraph::{raw::MAX_ENTRIES, HandedOut, Job, Outcome, Progress, Refusal, TaskGraph};

use crate::{
    log::Line,
    plan::Plan,
    shared::{Fallible, Held, Shared},
};

/// How a worker adds and finishes.
#[derive(Clone, Copy, PartialEq, Eq)]
enum Manner {
    /// In steps, with the lock free between them.
    Steps,
    /// Each add and each finish in one call.
    Whole,
    /// Adds by sheets, and each finish in one call.
    Sheets,
}

pub struct Worker {
    number: u32,
    manner: Manner,
    shared: Shared,
    plan: Plan,
    random: Random,
    log: File,
    /// The jobs of the plan that it is to add.
    claimed: Vec<usize>,
}

impl Worker {
    pub fn new(number: u32, seed: u64, folder: &Path, log: &Path) -> Fallible<Worker> {
        Ok(Worker {
            number,
            manner: [Manner::Steps, Manner::Whole, Manner::Sheets][number as usize % 3],
            shared: Shared::open(folder)?,
            plan: Plan::new(seed),
            random: Random::nth(seed, "workers", u64::from(number)),
            log: File::create(log)?,
            claimed: Vec::new(),
        })
    }

    pub fn run(mut self) -> Fallible<()> {
        self.load()?;
        loop {
            if self.random.once_in(32) {
                self.load()?;
            }
            // Mostly adding at first, so that many prerequisites are still unfinished when they are linked.
            if !self.random.once_in(8) {
                self.claim()?;
                self.add()?;
            }
            let mut held = self.shared.lock()?;
            // The queue is logged under the lock of its get, so that a kill comes before both or after both.
            let (taken, put) = held.queue_counters();
            if taken < put {
                for (place, name) in held.look_at_queue()? {
                    self.write(Line::Queued { name, place })?;
                }
            }
            match held.graph.get(self.number)? {
                Some(job) => {
                    let HandedOut { name, spoiled, .. } = job;
                    self.write(Line::HandedOut { name, spoiled, taken, put })?;
                    let asked = held.graph.held(self.number)?.job;
                    if asked != Some(job) {
                        return Err(format!("{job:?} was handed out, and {asked:?} is held").into());
                    }
                    held.set_busy(self.number, true)?;
                    drop(held);
                    self.work(job)?;
                }
                None if held.is_over()? => return Ok(()),
                None => {
                    drop(held);
                    thread::yield_now();
                }
            }
        }
    }

    /// Tries to load minutes of its own, and now and then wrong ones.
    fn load(&mut self) -> Fallible<()> {
        if self.random.once_in(4) {
            let wrong = minute_values::wrong(&mut self.random);
            self.shared.lock()?.load_wrong(&wrong)?;
        }
        let number = self.number as usize;
        let mut held = self.shared.lock()?;
        let taken = held.load(number, &self.plan.minutes(number))?;
        self.write(Line::Load { taken })
    }

    fn write(&self, line: Line) -> Fallible<()> {
        // One write for each line, so that a killed worker leaves whole lines.
        Ok((&self.log).write_all(format!("{line}\n").as_bytes())?)
    }

    fn claim(&mut self) -> Fallible<()> {
        if self.claimed.is_empty() {
            let wanted = self.wanted();
            let held = self.shared.lock()?;
            self.claimed = held.claim(self.number, wanted)?;
            held.set_busy(self.number, !self.claimed.is_empty())?;
        }
        Ok(())
    }

    /// How many jobs are claimed at once: for a sheet several, now and then as many as one takes.
    fn wanted(&mut self) -> usize {
        match self.manner {
            Manner::Steps | Manner::Whole => 1,
            Manner::Sheets if self.random.once_in(16) => MAX_ENTRIES,
            Manner::Sheets => 1 + self.random.below(8),
        }
    }

    /// Tries to add the claimed jobs; while a prerequisite is not there yet, a job stays claimed.
    fn add(&mut self) -> Fallible<()> {
        match (self.manner, self.claimed.first()) {
            (_, None) => Ok(()),
            (Manner::Steps, Some(job)) => self.add_by_steps(*job),
            (Manner::Whole, Some(job)) => self.add_whole(*job),
            (Manner::Sheets, Some(_)) => self.add_by_sheet(),
        }
    }

    fn add_by_steps(&mut self, job: usize) -> Fallible<()> {
        self.shared.lock()?.graph.post_add(self.number, &self.plan.job(job))?;
        loop {
            let mut held = self.shared.lock()?;
            match held.graph.step(self.number) {
                Ok(Progress::GoingOn) => {}
                ended => {
                    let answer = ended.map(drop);
                    note_added(&held, job, answer)?;
                    drop(held);
                    return self.take_answers(&[answer]);
                }
            }
        }
    }

    fn add_whole(&mut self, job: usize) -> Fallible<()> {
        let mut held = self.shared.lock()?;
        let answer = held.graph.add(self.number, &self.plan.job(job));
        note_added(&held, job, answer)?;
        drop(held);
        self.take_answers(&[answer])
    }

    fn add_by_sheet(&mut self) -> Fallible<()> {
        let jobs: Vec<Job> = self.claimed.iter().map(|job| self.plan.job(*job)).collect();
        let mut held = self.shared.lock()?;
        let answers = held.graph.add_sheet(self.number, &jobs)?;
        for (job, answer) in self.claimed.iter().zip(&answers) {
            note_added(&held, *job, *answer)?;
        }
        drop(held);
        self.take_answers(&answers)
    }

    /// What became of the claimed jobs: those added are logged, and those that can never be are given up.
    fn take_answers(&mut self, answers: &[Result<(), Refusal>]) -> Fallible<()> {
        let claimed = std::mem::take(&mut self.claimed);
        for (job, answer) in claimed.into_iter().zip(answers) {
            match *answer {
                Ok(()) => self.write(Line::Added { job })?,
                Err(Refusal::UnknownName { place }) => {
                    if !self.gives_up(job, self.plan.lists[job][place])? {
                        self.claimed.push(job);
                    }
                }
                Err(refusal) => return Err(refusal.into()),
            }
        }
        self.shared.lock()?.set_busy(self.number, !self.claimed.is_empty())
    }

    /// Gives a job up if the prerequisite that it lacks will never be there.
    fn gives_up(&self, job: usize, prerequisite: usize) -> Fallible<bool> {
        let held = self.shared.lock()?;
        let lost = held.is_lost(prerequisite)?;
        if lost {
            held.give_up(job)?;
        }
        Ok(lost)
    }

    /// Works at a job for a random time and finishes it: as the plan says, and as failed if it is told to be spoiled.
    fn work(&mut self, job: HandedOut) -> Fallible<()> {
        let name = job.name;
        let ticket = self.shared.ticket()?;
        self.write(Line::Start { name, ticket })?;
        if self.random.once_in(256) {
            thread::sleep(Duration::from_micros(self.random.below(4_000) as u64));
        }
        let end = Instant::now() + Duration::from_nanos(self.random.below(30_000) as u64);
        while Instant::now() < end {
            std::hint::spin_loop();
        }
        let ticket = self.shared.ticket()?;
        self.write(Line::End { name, ticket })?;
        if job.spoiled && self.random.once_in(4) {
            self.finish_as_good(name)?;
        }
        let fails = job.spoiled || self.plan.number(name).map_or(false, |number| self.plan.fails(number));
        self.finish(name, if fails { Outcome::Failed } else { Outcome::Good })
    }

    /// Tries to finish a spoiled job as good, which is turned away.
    fn finish_as_good(&mut self, name: u32) -> Fallible<()> {
        let mut held = self.shared.lock()?;
        let answer = match self.manner {
            Manner::Steps => held.graph.post_finish(self.number, name, Outcome::Good),
            Manner::Whole | Manner::Sheets => held.graph.finish(self.number, name, Outcome::Good),
        };
        drop(held);
        match answer {
            Err(Refusal::GoodForSpoiled) => self.write(Line::TurnedAway { name }),
            answer => Err(format!("a spoiled job's finish as good was answered {answer:?}").into()),
        }
    }

    fn finish(&mut self, name: u32, outcome: Outcome) -> Fallible<()> {
        if self.manner == Manner::Steps {
            self.finish_by_steps(name, outcome)?;
        } else {
            let mut held = self.shared.lock()?;
            held.graph.finish(self.number, name, outcome)?;
            held.set_busy(self.number, !self.claimed.is_empty())?;
        }
        self.write(Line::Finished { name })
    }

    fn finish_by_steps(&mut self, name: u32, outcome: Outcome) -> Fallible<()> {
        self.shared.lock()?.graph.post_finish(self.number, name, outcome)?;
        loop {
            let mut held = self.shared.lock()?;
            if held.graph.step(self.number)? == Progress::Ended {
                return held.set_busy(self.number, !self.claimed.is_empty());
            }
        }
    }
}

/// Says under the lock of its call that a job was added, so that a kill comes before both or after both.
fn note_added(held: &Held, job: usize, answer: Result<(), Refusal>) -> Fallible<()> {
    if answer.is_ok() {
        held.set_added(job)?;
    }
    Ok(())
}
