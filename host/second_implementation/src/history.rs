//! The history of calls (docs/RULES.md, "Steps", "The plain book" and demand 3), read off the items of a
//! list and their answers alone: whole calls in the order of their deciding steps, and the entries of
//! each job into the queue. An item may also be a call run whole, or a sheet, which counts as its separate adds.

use std::collections::HashMap;

use crate::{
    book::{Ending, GetAnswer, Request},
    graph::{Answer, Outcome, Refusal, Reply, SheetAnswer},
    refusal,
    sheet::Entry,
};

/// One item of a list.
#[derive(Clone, Debug, PartialEq, Eq)]
pub enum Item {
    PostAdd {
        worker: u32,
        entry: Entry,
    },
    /// With the number of its outcome.
    PostFinish {
        worker: u32,
        name: u32,
        outcome: u32,
    },
    Step {
        worker: u32,
    },
    Get {
        worker: u32,
    },
    /// An add run whole.
    Add {
        worker: u32,
        entry: Entry,
    },
    /// A finish run whole.
    Finish {
        worker: u32,
        name: u32,
        outcome: u32,
    },
    /// The adds of all entries, each run whole; so many words follow that make no whole row.
    AddSheet {
        worker: u32,
        entries: Vec<Entry>,
        stray: usize,
    },
    /// A load of minute values, which has no worker and is no call of the book.
    Load {
        minutes: Vec<u32>,
    },
}

/// What an item is answered.
#[derive(Clone, Debug, PartialEq, Eq)]
pub enum Told {
    One(Answer),
    /// Of a sheet.
    Each(SheetAnswer),
}

impl From<Answer> for Told {
    fn from(answer: Answer) -> Told {
        Told::One(answer)
    }
}

/// A decided call.
#[derive(Clone, Debug)]
pub struct Call {
    pub worker: usize,
    pub request: Request,
    /// How it ended, once it has.
    pub ending: Option<Ending>,
}

/// A job that has entered.
#[derive(Clone, Debug)]
pub struct Job {
    pub prerequisites: Vec<usize>,
    pub add_ended: bool,
    /// An accepted finish call of it has ended.
    pub finish_ended: bool,
}

/// A call posted and not yet ended.
#[derive(Clone, Debug)]
struct Open {
    request: Request,
    /// Steps that were answered "going on".
    steps: usize,
    /// Its number among the decided calls, once it is decided.
    decided: Option<usize>,
    /// The job it enters or finishes, once it is decided.
    job: Option<usize>,
}

#[derive(Clone, Debug, Default)]
pub struct History {
    open: HashMap<u32, Open>,
    calls: Vec<Call>,
    jobs: Vec<Job>,
    numbers: HashMap<u32, usize>,
}

impl History {
    /// The decided calls, in the order of their deciding steps.
    pub fn calls(&self) -> &[Call] {
        &self.calls
    }

    /// The jobs, in the order of their entering steps.
    pub fn jobs(&self) -> &[Job] {
        &self.jobs
    }

    pub fn is_half_done(&self) -> bool {
        !self.open.is_empty()
    }

    /// Takes the next item and what it was answered. Items turned away by 1 to 4, or by 16, belong to no call.
    pub fn take(&mut self, item: &Item, told: &Told) {
        match (item, told) {
            (Item::PostAdd { worker, entry }, Told::One(answer)) => self.post(*worker, Request::Add(*entry), answer),
            (Item::PostFinish { worker, name, outcome }, Told::One(answer)) => {
                self.post(*worker, finish(*name, *outcome), answer);
            }
            (Item::Step { worker }, Told::One(answer)) => self.step(*worker, answer),
            (Item::Get { worker }, Told::One(answer)) => self.get(*worker, answer),
            (Item::Add { worker, entry }, Told::One(answer)) => self.whole(*worker, Request::Add(*entry), answer),
            (Item::Finish { worker, name, outcome }, Told::One(answer)) => {
                self.whole(*worker, finish(*name, *outcome), answer);
            }
            (Item::AddSheet { worker, entries, .. }, Told::Each(Ok(answers))) => {
                let adds = entries.iter().zip(answers);
                adds.for_each(|(entry, answer)| self.whole(*worker, Request::Add(*entry), answer));
            }
            (Item::AddSheet { .. }, Told::Each(Err(_))) | (Item::Load { .. }, Told::One(_)) => {}
            _ => panic!("{item:?} is not answered by {told:?}"),
        }
    }

    /// A call run whole: decided and ended by one answer.
    fn whole(&mut self, worker: u32, request: Request, answer: &Answer) {
        match answer {
            Ok(_) => {
                let mut open = Open { request, steps: 0, decided: None, job: None };
                self.decide(worker, &mut open);
                self.end(&open);
            }
            Err(refusal) if ends_a_call(refusal) => self.ended(worker, request, Ending::Refused(*refusal)),
            Err(_) => {}
        }
    }

    fn post(&mut self, worker: u32, request: Request, answer: &Answer) {
        match answer {
            Ok(_) => {
                self.open.insert(worker, Open { request, steps: 0, decided: None, job: None });
            }
            Err(refusal) if ends_a_call(refusal) => self.ended(worker, request, Ending::Refused(*refusal)),
            Err(_) => {}
        }
    }

    fn get(&mut self, worker: u32, answer: &Answer) {
        match answer {
            Ok(Reply::HandedOut { job, spoiled, .. }) => {
                let answer = GetAnswer::HandedOut { job: *job, spoiled: *spoiled };
                self.ended(worker, Request::Get(answer), Ending::Accepted);
            }
            Ok(_) => self.ended(worker, Request::Get(GetAnswer::NoneReady), Ending::Accepted),
            Err(refusal) if ends_a_call(refusal) => {
                self.ended(worker, Request::Get(GetAnswer::Refused), Ending::Refused(*refusal));
            }
            Err(_) => {}
        }
    }

    fn step(&mut self, worker: u32, answer: &Answer) {
        let mut open = match self.open.remove(&worker) {
            Some(open) => open,
            None => return,
        };
        match answer {
            Ok(reply) => {
                open.steps += 1;
                if open.steps == deciding_step(&open.request) {
                    self.decide(worker, &mut open);
                }
                if *reply == Reply::Ended {
                    self.end(&open);
                } else {
                    self.open.insert(worker, open);
                }
            }
            Err(refusal) if ends_a_call(refusal) => self.ended(worker, open.request, Ending::Refused(*refusal)),
            Err(_) => {
                self.open.insert(worker, open);
            }
        }
    }

    /// A call that is decided and ended at once.
    fn ended(&mut self, worker: u32, request: Request, ending: Ending) {
        self.calls.push(Call { worker: worker as usize, request, ending: Some(ending) });
    }

    /// The deciding step of an accepted add or finish.
    fn decide(&mut self, worker: u32, open: &mut Open) {
        open.decided = Some(self.calls.len());
        self.calls.push(Call { worker: worker as usize, request: open.request.clone(), ending: None });
        match &open.request {
            Request::Add(entry) => {
                open.job = Some(self.jobs.len());
                self.enter(entry);
            }
            Request::Finish { name, .. } => open.job = self.numbers.get(name).copied(),
            Request::Get(_) => {}
        }
    }

    fn enter(&mut self, entry: &Entry) {
        let list = &entry.prerequisites.names[..entry.prerequisites.count];
        let prerequisites = list.iter().filter_map(|name| self.numbers.get(name).copied()).collect();
        self.numbers.insert(entry.name, self.jobs.len());
        self.jobs.push(Job { prerequisites, add_ended: false, finish_ended: false });
    }

    fn end(&mut self, open: &Open) {
        if let Some(call) = open.decided {
            self.calls[call].ending = Some(Ending::Accepted);
        }
        if let Some(job) = open.job {
            match open.request {
                Request::Add(_) => self.jobs[job].add_ended = true,
                _ => self.jobs[job].finish_ended = true,
            }
        }
    }

    /// What is wrong with the entries of the jobs into the queue, by demand 3: at most one; nought
    /// unless each prerequisite is marked finished; one if its add and an accepted finish call of each
    /// prerequisite have ended.
    pub fn wrong_entries(&self, entries: &Entries, is_finished: impl Fn(usize) -> bool) -> Option<String> {
        self.jobs.iter().enumerate().find_map(|(number, job)| {
            let count = entries.of(number);
            let due = job.add_ended && job.prerequisites.iter().all(|other| self.jobs[*other].finish_ended);
            let wrong = count > 1
                || count > 0 && !job.prerequisites.iter().all(|other| is_finished(*other))
                || count == 0 && due;
            wrong.then(|| format!("job {number} entered the queue {count} times; one entry is due: {due}"))
        })
    }

    /// What is wrong with the marks of the jobs: a job that has entered the queue is spoiled exactly if it has a
    /// prerequisite that failed; one that is spoiled ends as failed; and once no call is half done, one whose
    /// prerequisites have all ended is spoiled exactly if a chain of prerequisites leads to a job that failed without
    /// being spoiled.
    pub fn wrong_marks(&self, entries: &Entries, shown: &[Shown]) -> Option<String> {
        let mut led: Vec<bool> = Vec::with_capacity(self.jobs.len());
        for job in &self.jobs {
            // The prerequisites of a job have lower numbers, so what leads to them is known.
            let source = |other: &usize| shown[*other].failed && !shown[*other].spoiled || led[*other];
            led.push(job.prerequisites.iter().any(source));
        }
        self.jobs.iter().enumerate().find_map(|(number, job)| {
            let all_ended = job.prerequisites.iter().all(|other| shown[*other].finished);
            let any_failed = job.prerequisites.iter().any(|other| shown[*other].failed);
            let Shown { finished, failed, spoiled } = shown[number];
            let wrong = entries.of(number) > 0 && spoiled != any_failed
                || failed && !finished
                || finished && spoiled && !failed
                || !self.is_half_done() && all_ended && spoiled != led[number];
            let chain = led[number];
            wrong.then(|| format!("job {number}: {:?}, and a chain leads to a failed job: {chain}", shown[number]))
        })
    }
}

/// What is shown of a job: whether it has ended, as what, and its mark.
#[derive(Clone, Copy, Debug, PartialEq, Eq)]
pub struct Shown {
    pub finished: bool,
    pub failed: bool,
    pub spoiled: bool,
}

fn finish(name: u32, outcome: u32) -> Request {
    Request::Finish { name, outcome: Outcome::of(outcome) }
}

/// Numbers 1 to 4 end no call, and number 9 leaves it half done.
fn ends_a_call(refusal: &Refusal) -> bool {
    refusal.number > refusal::IDLE && refusal.number != refusal::DAMAGED
}

/// Which step, from 1, decides an accepted add (entering) or finish (the mark).
fn deciding_step(request: &Request) -> usize {
    match request {
        Request::Add(entry) => entry.prerequisites.count + 1,
        _ => 1,
    }
}

/// The count of each job's entries: the sum, over the items, of how many more places in the queue it
/// has just after the item than just before.
#[derive(Clone, Debug, Default)]
pub struct Entries {
    counts: Vec<usize>,
    places: Vec<usize>,
}

impl Entries {
    /// Takes the places of the queue as they stand just after an item: a job number each.
    pub fn take(&mut self, jobs: usize, queue: impl Iterator<Item = usize>) {
        let mut places = vec![0_usize; jobs];
        queue.filter(|job| *job < jobs).for_each(|job| places[job] += 1);
        self.counts.resize(jobs, 0);
        self.places.resize(jobs, 0);
        for (job, count) in self.counts.iter_mut().enumerate() {
            *count += places[job].saturating_sub(self.places[job]);
        }
        self.places = places;
    }

    pub fn of(&self, job: usize) -> usize {
        self.counts.get(job).copied().unwrap_or(0)
    }
}

#[cfg(test)]
mod tests {
    use super::*;
    use crate::graph::refused;

    fn entry(name: u32, list: &[u32]) -> Entry {
        let mut entry = Entry { name, ..Entry::default() };
        entry.prerequisites.count = list.len();
        entry.prerequisites.names[..list.len()].copy_from_slice(list);
        entry
    }

    fn history(items: &[(Item, Answer)]) -> History {
        let mut history = History::default();
        items.iter().for_each(|(item, answer)| history.take(item, &Told::from(*answer)));
        history
    }

    const POSTED: Answer = Ok(Reply::Posted);
    const GOING_ON: Answer = Ok(Reply::GoingOn);
    const ENDED: Answer = Ok(Reply::Ended);

    #[test]
    fn adds_are_ordered_by_entering() {
        let history = history(&[
            (Item::PostAdd { worker: 0, entry: entry(1, &[]) }, POSTED),
            (Item::PostAdd { worker: 1, entry: entry(2, &[]) }, POSTED),
            (Item::Step { worker: 2 }, refused(4)),
            (Item::Step { worker: 1 }, GOING_ON),
            (Item::Step { worker: 0 }, GOING_ON),
            (Item::Step { worker: 0 }, ENDED),
        ]);
        let requests: Vec<_> = history.calls().iter().map(|call| call.request.clone()).collect();
        assert_eq!(requests, [Request::Add(entry(2, &[])), Request::Add(entry(1, &[]))]);
        let endings: Vec<_> = history.calls().iter().map(|call| call.ending).collect();
        assert_eq!(endings, [None, Some(Ending::Accepted)]);
        assert!(history.is_half_done());
    }

    #[test]
    fn a_finish_is_decided_by_its_mark_and_a_refused_call_by_its_refusal() {
        let unknown = Refusal { number: 6, place: 0 };
        let history = history(&[
            (Item::PostAdd { worker: 0, entry: entry(1, &[]) }, POSTED),
            (Item::Step { worker: 0 }, GOING_ON),
            (Item::Step { worker: 0 }, ENDED),
            (Item::Get { worker: 1 }, Ok(Reply::HandedOut { job: 0, name: 1, spoiled: false })),
            (Item::PostFinish { worker: 1, name: 1, outcome: 0 }, POSTED),
            (Item::PostAdd { worker: 0, entry: entry(7, &[8]) }, POSTED),
            (Item::Get { worker: 0 }, refused(3)),
            (Item::Step { worker: 0 }, Err(unknown)),
            (Item::Step { worker: 1 }, ENDED),
            (Item::Get { worker: 1 }, Ok(Reply::NoneReady)),
        ]);
        let endings: Vec<_> = history.calls().iter().map(|call| (call.worker, call.ending.unwrap())).collect();
        let accepted = Ending::Accepted;
        assert_eq!(
            endings,
            [(0, accepted), (1, accepted), (0, Ending::Refused(unknown)), (1, accepted), (1, accepted)]
        );
        assert!(!history.is_half_done());
        assert!(history.jobs()[0].finish_ended);
    }

    #[test]
    fn whole_calls_are_decided_where_they_stand_and_a_sheet_is_its_adds() {
        let mut history = history(&[
            (Item::PostAdd { worker: 0, entry: entry(9, &[]) }, POSTED),
            (Item::Add { worker: 1, entry: entry(1, &[]) }, ENDED),
            (Item::Step { worker: 0 }, GOING_ON),
        ]);
        let unknown = Refusal { number: 6, place: 0 };
        let entries = vec![entry(2, &[7]), entry(3, &[1])];
        let sheet = Item::AddSheet { worker: 1, entries, stray: 0 };
        history.take(&sheet, &Told::Each(refused(16)));
        history.take(&sheet, &Told::Each(Ok(vec![Err(unknown), ENDED])));
        let handed_out = Ok(Reply::HandedOut { job: 0, name: 1, spoiled: false });
        history.take(&Item::Get { worker: 1 }, &Told::One(handed_out));
        history.take(&Item::Finish { worker: 1, name: 1, outcome: 2 }, &Told::One(ENDED));
        let endings: Vec<_> = history.calls().iter().map(|call| (call.worker, call.ending)).collect();
        let accepted = Some(Ending::Accepted);
        let refused = Some(Ending::Refused(unknown));
        let expected = [(1, accepted), (0, None), (1, refused), (1, accepted), (1, accepted), (1, accepted)];
        assert_eq!(endings, expected);
        let last = history.calls().last().map(|call| call.request.clone());
        assert_eq!(last, Some(Request::Finish { name: 1, outcome: Outcome::Failed }), "any number but 0 is failed");
        assert_eq!(history.jobs()[2].prerequisites, [0]);
        assert!(history.jobs()[0].finish_ended && history.jobs()[2].add_ended && !history.jobs()[1].add_ended);
    }

    #[test]
    fn entries_are_counted_by_places() {
        let mut entries = Entries::default();
        entries.take(2, [].into_iter());
        entries.take(2, [0, 1].into_iter());
        entries.take(2, [1].into_iter());
        entries.take(2, [1, 0].into_iter());
        assert_eq!((entries.of(0), entries.of(1), entries.of(2)), (2, 1, 0));
    }

    #[test]
    fn each_clause_on_entries() {
        let history = history(&[
            (Item::PostAdd { worker: 0, entry: entry(1, &[]) }, POSTED),
            (Item::Step { worker: 0 }, GOING_ON),
            (Item::PostAdd { worker: 1, entry: entry(2, &[1]) }, POSTED),
            (Item::Step { worker: 1 }, GOING_ON),
            (Item::Step { worker: 1 }, GOING_ON),
            (Item::Step { worker: 0 }, ENDED),
        ]);
        let queued = |jobs: &[usize]| {
            let mut entries = Entries::default();
            entries.take(2, jobs.iter().copied());
            entries
        };
        assert_eq!(history.wrong_entries(&queued(&[0]), |_| false), None);
        assert!(history.wrong_entries(&queued(&[]), |_| false).is_some(), "one is due");
        assert!(history.wrong_entries(&queued(&[0, 0]), |_| false).is_some(), "at most one");
        assert!(history.wrong_entries(&queued(&[0, 1]), |_| false).is_some(), "nought before the prerequisite");
        assert_eq!(history.wrong_entries(&queued(&[0, 1]), |_| true), None);
    }

    /// Job 1 rests on 0, and job 2 on 1; worker 1's add of job 3 has not ended.
    #[test]
    fn each_clause_on_marks() {
        let adds = [(1, &[][..]), (2, &[1]), (3, &[2])];
        let mut quiet = History::default();
        for (name, list) in adds {
            quiet.take(&Item::Add { worker: 0, entry: entry(name, list) }, &Told::One(ENDED));
        }
        let mut half_done = quiet.clone();
        half_done.take(&Item::PostAdd { worker: 1, entry: entry(4, &[]) }, &Told::One(POSTED));
        let mut queued = Entries::default();
        queued.take(3, [0].into_iter());
        let open = Shown { finished: false, failed: false, spoiled: false };
        let good = Shown { finished: true, ..open };
        let failed = Shown { failed: true, ..good };
        let spoiled = Shown { spoiled: true, ..open };
        let ended_spoiled = Shown { spoiled: true, ..failed };
        for right in [[open; 3], [good, open, open], [failed, spoiled, open], [failed, ended_spoiled, spoiled]] {
            assert_eq!(quiet.wrong_marks(&queued, &right), None, "{right:?}");
        }
        assert!(quiet.wrong_marks(&queued, &[spoiled, open, open]).is_some(), "a queued job that rests on nothing");
        assert!(quiet.wrong_marks(&queued, &[failed, open, open]).is_some(), "1 rests on a failed job");
        assert!(quiet.wrong_marks(&queued, &[good, spoiled, open]).is_some(), "1 rests on a good one");
        assert!(quiet.wrong_marks(&queued, &[Shown { failed: true, ..open }, open, open]).is_some(), "not ended");
        let ended_good = Shown { spoiled: true, ..good };
        assert!(quiet.wrong_marks(&queued, &[failed, ended_good, open]).is_some(), "a spoiled job ends as good");
        assert_eq!(half_done.wrong_marks(&queued, &[failed, open, open]), None, "the arc may yet be stepped");
        queued.take(3, [1].into_iter());
        assert!(half_done.wrong_marks(&queued, &[failed, open, open]).is_some(), "queued, so the mark is complete");
    }
}
