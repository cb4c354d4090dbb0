//! The plain book (docs/RULES.md, "The plain book"): the same jobs with whole calls, one after another.

use std::collections::HashMap;

use crate::{
    graph::{judged_list, refused, Outcome, Refusal, Sizes},
    refusal,
    sheet::Entry,
    totals::Label,
};

/// What the book is fed: a whole call, for a get also its answer.
#[derive(Clone, Debug, PartialEq, Eq)]
pub enum Request {
    Add(Entry),
    Finish { name: u32, outcome: Outcome },
    Get(GetAnswer),
}

#[derive(Clone, Copy, Debug, PartialEq, Eq)]
pub enum GetAnswer {
    /// The worker was turned away; the book says by which number.
    Refused,
    NoneReady,
    HandedOut {
        job: usize,
        spoiled: bool,
    },
}

/// How a whole call ends in the book.
#[derive(Clone, Copy, Debug, PartialEq, Eq)]
pub enum Ending {
    Accepted,
    Refused(Refusal),
    /// The answer of a get that the book cannot take: a job that is not ready, one that is told to be spoiled and is
    /// not or the other way round, or a refusal of a worker without a job.
    Impossible,
}

/// A job in the book.
#[derive(Clone, Debug)]
struct Job {
    name: u32,
    /// The jobs of its listed names.
    prerequisites: Vec<usize>,
    class: u32,
    grower: u32,
    label: Label,
    /// What its finish brought, once it is finished.
    outcome: Option<Outcome>,
}

/// What is compared of a job: all but its list of names.
#[derive(Clone, Copy, Debug, PartialEq, Eq)]
pub struct JobView {
    pub name: u32,
    pub class: u32,
    pub grower: u32,
    pub label: u32,
    pub count: u32,
    pub waits: bool,
    /// It has ended as failed.
    pub failed: bool,
    pub spoiled: bool,
}

/// What is compared of the book: the jobs in order of entry, and each worker's hold.
#[derive(Clone, Debug, PartialEq, Eq)]
pub struct View {
    pub jobs: Vec<JobView>,
    pub holds: Vec<Option<usize>>,
}

#[derive(Clone, Debug)]
pub struct Book {
    sizes: Sizes,
    jobs: Vec<Job>,
    numbers: HashMap<u32, usize>,
    /// The lengths of all lists together.
    listed: usize,
    holds: Vec<Option<usize>>,
}

impl Book {
    pub fn new(sizes: Sizes) -> Book {
        let holds = vec![None; sizes.workers as usize];
        Book { sizes, jobs: Vec::new(), numbers: HashMap::new(), listed: 0, holds }
    }

    /// A worker's whole call.
    pub fn feed(&mut self, worker: usize, request: &Request) -> Ending {
        let result = match request {
            Request::Add(entry) => self.add(entry),
            Request::Finish { name, outcome } => self.finish(worker, *name, *outcome),
            Request::Get(answer) => match self.get(worker, *answer) {
                Some(result) => result,
                None => return Ending::Impossible,
            },
        };
        result.map_or_else(Ending::Refused, |()| Ending::Accepted)
    }

    fn add(&mut self, entry: &Entry) -> Result<(), Refusal> {
        let list = judged_list(entry)?;
        let mut prerequisites = Vec::with_capacity(list.len());
        for (place, name) in list.iter().enumerate() {
            match self.numbers.get(name) {
                Some(job) => prerequisites.push(*job),
                None => return Err(Refusal { number: refusal::UNKNOWN_NAME, place }),
            }
        }
        if self.numbers.contains_key(&entry.name) {
            return refused(refusal::NAME_PRESENT);
        }
        let number = self.jobs.len();
        if number == self.sizes.jobs as usize || self.listed + list.len() > self.sizes.arcs as usize {
            return refused(refusal::FULL);
        }
        self.listed += list.len();
        self.numbers.insert(entry.name, number);
        let Entry { name, class, grower, .. } = *entry;
        self.jobs.push(Job { name, prerequisites, class, grower, label: Label::Unexecuted, outcome: None });
        Ok(())
    }

    /// `None` where the answer is not one that the book takes.
    fn get(&mut self, worker: usize, answer: GetAnswer) -> Option<Result<(), Refusal>> {
        if self.holds[worker].is_some() {
            return Some(refused(refusal::HOLDING));
        }
        match answer {
            GetAnswer::NoneReady => {}
            GetAnswer::HandedOut { job, spoiled }
                if job < self.jobs.len() && self.is_ready(job) && self.is_spoiled(job) == spoiled =>
            {
                self.jobs[job].label = Label::Executing;
                self.holds[worker] = Some(job);
            }
            _ => return None,
        }
        Some(Ok(()))
    }

    fn finish(&mut self, worker: usize, name: u32, outcome: Outcome) -> Result<(), Refusal> {
        let job = match self.holds[worker] {
            Some(job) if self.jobs[job].name == name => job,
            _ => return refused(refusal::NOT_HELD),
        };
        if self.is_spoiled(job) && outcome == Outcome::Good {
            return refused(refusal::GOOD_FOR_SPOILED);
        }
        self.jobs[job].label = Label::Finished;
        self.jobs[job].outcome = Some(outcome);
        self.holds[worker] = None;
        Ok(())
    }

    /// How many listed names have jobs not finished.
    fn remaining(&self, job: usize) -> usize {
        let prerequisites = self.jobs[job].prerequisites.iter();
        prerequisites.filter(|prerequisite| self.jobs[**prerequisite].label != Label::Finished).count()
    }

    /// Ready, and waiting: unexecuted with count 0.
    fn is_ready(&self, job: usize) -> bool {
        self.jobs[job].label == Label::Unexecuted && self.remaining(job) == 0
    }

    fn has_failed(&self, job: usize) -> bool {
        self.jobs[job].outcome == Some(Outcome::Failed)
    }

    /// It has a prerequisite that failed.
    fn is_spoiled(&self, job: usize) -> bool {
        self.jobs[job].prerequisites.iter().any(|prerequisite| self.has_failed(*prerequisite))
    }

    pub fn any_ready(&self) -> bool {
        (0..self.jobs.len()).any(|job| self.is_ready(job))
    }

    pub fn view(&self) -> View {
        let view = |number: usize| {
            let job = &self.jobs[number];
            let count = self.remaining(number) as u32;
            JobView {
                name: job.name,
                class: job.class,
                grower: job.grower,
                label: job.label as u32,
                count,
                waits: job.label == Label::Unexecuted && count == 0,
                failed: self.has_failed(number),
                spoiled: self.is_spoiled(number),
            }
        };
        View { jobs: (0..self.jobs.len()).map(view).collect(), holds: self.holds.clone() }
    }
}

#[cfg(test)]
mod tests {
    use super::*;
    use crate::sheet::Names;

    fn add(name: u32, list: &[u32]) -> Request {
        let mut names = [0; 32];
        names[..list.len()].copy_from_slice(list);
        Request::Add(Entry { name, prerequisites: Names { count: list.len(), names }, class: 0, grower: 0 })
    }

    fn book(jobs: u32, arcs: u32) -> Book {
        Book::new(Sizes { jobs, arcs, bits: 1, workers: 2 })
    }

    fn refusal(number: u32, place: usize) -> Ending {
        Ending::Refused(Refusal { number, place })
    }

    #[test]
    fn adds_in_the_order_of_their_refusals() {
        let mut book = book(3, 2);
        assert_eq!(book.feed(0, &add(1, &[])), Ending::Accepted);
        assert_eq!(book.feed(0, &add(2, &[2])), refusal(5, 0));
        assert_eq!(book.feed(0, &add(1, &[1])), refusal(5, 0));
        assert_eq!(book.feed(0, &add(1, &[7])), refusal(6, 0));
        assert_eq!(book.feed(0, &add(2, &[1, 7])), refusal(6, 1));
        assert_eq!(book.feed(0, &add(1, &[])), refusal(7, 0));
        assert_eq!(book.feed(1, &add(2, &[1])), Ending::Accepted);
        assert_eq!(book.feed(1, &add(3, &[1, 2])), refusal(8, 0));
        assert_eq!(book.feed(1, &add(3, &[2])), Ending::Accepted);
        assert_eq!(book.feed(1, &add(4, &[])), refusal(8, 0));
        let counts: Vec<u32> = book.view().jobs.iter().map(|job| job.count).collect();
        assert_eq!(counts, [0, 1, 1]);
    }

    #[test]
    fn gets_take_any_ready_job_and_no_other() {
        let mut book = book(3, 2);
        for (name, list) in [(1, &[][..]), (2, &[]), (3, &[1, 2])] {
            assert_eq!(book.feed(0, &add(name, list)), Ending::Accepted);
        }
        let handed_out = |job| Request::Get(GetAnswer::HandedOut { job, spoiled: false });
        let good = |name| Request::Finish { name, outcome: Outcome::Good };
        assert_eq!(book.feed(0, &handed_out(2)), Ending::Impossible);
        assert_eq!(book.feed(0, &handed_out(3)), Ending::Impossible);
        assert_eq!(book.feed(0, &Request::Get(GetAnswer::Refused)), Ending::Impossible);
        assert_eq!(book.feed(0, &handed_out(1)), Ending::Accepted);
        assert_eq!(book.feed(0, &handed_out(0)), refusal(10, 0));
        assert_eq!(book.feed(1, &handed_out(1)), Ending::Impossible);
        assert_eq!(book.feed(1, &Request::Get(GetAnswer::NoneReady)), Ending::Accepted);
        assert_eq!(book.feed(1, &handed_out(0)), Ending::Accepted);
        assert_eq!(book.feed(1, &good(2)), refusal(11, 0));
        assert_eq!(book.feed(1, &good(1)), Ending::Accepted);
        assert!(!book.any_ready());
        assert_eq!(book.feed(0, &good(2)), Ending::Accepted);
        assert!(book.view().jobs[2].waits);
        assert_eq!(book.view().holds, [None, None]);
    }

    /// Job 3 needs 1, which fails, and 2; job 4 needs 3, and job 5 needs 2.
    #[test]
    fn a_failed_job_spoils_those_that_rest_on_it() {
        let mut book = book(5, 4);
        for (name, list) in [(1, &[][..]), (2, &[]), (3, &[1, 2]), (4, &[3]), (5, &[2])] {
            assert_eq!(book.feed(0, &add(name, list)), Ending::Accepted);
        }
        let handed_out = |job, spoiled| Request::Get(GetAnswer::HandedOut { job, spoiled });
        let finish = |name, outcome| Request::Finish { name, outcome };
        let spoiled = |book: &Book| book.view().jobs.iter().map(|job| job.spoiled).collect::<Vec<bool>>();
        assert_eq!(book.feed(0, &handed_out(0, true)), Ending::Impossible);
        assert_eq!(book.feed(0, &handed_out(0, false)), Ending::Accepted);
        assert_eq!(book.feed(0, &finish(1, Outcome::Failed)), Ending::Accepted);
        assert_eq!(spoiled(&book), [false, false, true, false, false], "4 rests on 3, which has not failed yet");
        assert_eq!(book.feed(0, &handed_out(1, false)), Ending::Accepted);
        assert_eq!(book.feed(0, &finish(2, Outcome::Good)), Ending::Accepted);
        assert_eq!(book.feed(0, &handed_out(2, false)), Ending::Impossible);
        assert_eq!(book.feed(0, &handed_out(2, true)), Ending::Accepted);
        assert_eq!(book.feed(0, &finish(1, Outcome::Good)), refusal(11, 0), "11 comes before 19");
        assert_eq!(book.feed(0, &finish(3, Outcome::Good)), refusal(19, 0));
        assert_eq!(book.view().holds[0], Some(2), "nothing changed");
        assert_eq!(book.feed(0, &finish(3, Outcome::Failed)), Ending::Accepted);
        assert_eq!(spoiled(&book), [false, false, true, true, false]);
        let failed: Vec<bool> = book.view().jobs.iter().map(|job| job.failed).collect();
        assert_eq!(failed, [true, false, true, false, false]);
        assert_eq!(book.feed(0, &handed_out(4, false)), Ending::Accepted);
    }
}
