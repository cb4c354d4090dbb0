//! The task graph: its calls over any memory, and a graph in memory of its own.

use crate::{
    raw::{self, kind, Answer, SheetAdded, Sizes, Tables, CALL_ADD, CALL_NONE, CLASSES, FAILED, GOOD, MAX_ENTRIES},
    Job, Refusal, Totals,
};

/// How a job ends, which its finish brings.
#[derive(Clone, Copy, Debug, PartialEq, Eq, Hash)]
pub enum Outcome {
    /// Its work was done.
    Good,
    /// It gave nothing that can be relied on.
    Failed,
}

impl Outcome {
    /// As the library takes it.
    fn number(self) -> u32 {
        match self {
            Outcome::Good => GOOD,
            Outcome::Failed => FAILED,
        }
    }
}

/// A job that a worker has taken.
#[derive(Clone, Copy, Debug, PartialEq, Eq, Hash)]
pub struct HandedOut {
    /// The job's number, in the order of entering.
    pub job: u32,
    /// Its name, which the finish brings.
    pub name: u32,
    /// Whether a prerequisite of it failed. It may then only end as [`Outcome::Failed`].
    pub spoiled: bool,
}

/// A call that was posted and has not ended.
#[derive(Clone, Copy, Debug, PartialEq, Eq, Hash)]
pub enum HalfDone {
    /// An add of a job of this name.
    Add {
        /// The name of the job.
        name: u32,
    },
    /// A finish.
    Finish,
}

/// What a worker has taken on: for a process that acts for it anew.
#[derive(Clone, Copy, Debug, Default, PartialEq, Eq, Hash)]
pub struct Holding {
    /// The job that it holds.
    pub job: Option<HandedOut>,
    /// The call that it has half done, which [`run`](TaskGraph::run) takes to its end.
    pub call: Option<HalfDone>,
}

impl Holding {
    fn of(answer: raw::Holding) -> Result<Holding, Refusal> {
        Refusal::unless_accepted(answer.number, 0)?;
        let job = HandedOut { job: answer.job, name: answer.name, spoiled: answer.spoiled == 1 };
        let call = match answer.call {
            CALL_NONE => None,
            CALL_ADD => Some(HalfDone::Add { name: answer.adds }),
            _ => Some(HalfDone::Finish),
        };
        Ok(Holding { job: (answer.holds == 1).then_some(job), call })
    }
}

/// What a step that is not refused answers.
#[derive(Clone, Copy, Debug, PartialEq, Eq, Hash)]
pub enum Progress {
    /// The call has more steps.
    GoingOn,
    /// The call has ended.
    Ended,
}

/// The calls of a task graph, whatever memory holds it: a [`Graph`], or a [`SharedGraph`](crate::SharedGraph) while
/// it is locked.
///
/// A call by a worker numbered `sizes().workers` or more is [`Refusal::Worker`], and one over damaged words
/// [`Refusal::Damaged`], with nothing changed; a call run whole that they stop half done is [`Refusal::Stopped`]. Neither
/// comes where only these calls write them.
pub trait TaskGraph {
    /// The sizes that it was laid out with.
    fn sizes(&self) -> Sizes;

    /// The words of the five tables, in the order of [`Tables`].
    fn words(&self) -> [&[u32]; 5];

    /// The tables, lent for a call.
    fn tables(&mut self) -> Tables<'_>;

    /// Loads a district's minutes in place of the fixed ones, before the first job enters: [`CLASSES`] of them, class 0
    /// first, which rise strictly from class to class, each from 1 to [`MAX_MINUTES`](crate::raw::MAX_MINUTES).
    /// Hand-outs and [`totals`](TaskGraph::totals) then follow them. No worker is needed, and they may be loaded again.
    ///
    /// # Errors
    /// With nothing changed: 17 for values that are not so, 18 where a job has entered.
    ///
    /// ```
    /// # use taskgraph::{Graph, Job, Refusal, Sizes, TaskGraph};
    /// let mut graph = Graph::create(Sizes { jobs: 16, arcs: 64, bits: 4, workers: 1 })?;
    /// let district = [5, 10, 15, 20, 25, 30, 40, 50, 60, 75, 90, 120, 180, 240, 480, 1440];
    /// graph.load_minutes(&district)?;
    /// assert_eq!(graph.minutes()?, district);
    /// graph.add(0, &Job { class: 3, ..Job::new(1, &[]) })?;
    /// assert_eq!(graph.totals()?.unexecuted.minutes, 20);
    /// assert_eq!(graph.load_minutes(&district), Err(Refusal::Entered));
    /// assert_eq!(graph.load_minutes(&[5; 16]), Err(Refusal::Minutes));
    /// # Ok::<(), Refusal>(())
    /// ```
    fn load_minutes(&mut self, minutes: &[u32]) -> Result<(), Refusal> {
        accepted(raw::load_minutes(self.sizes(), &mut self.tables(), minutes)).map(drop)
    }

    /// The minutes of each class that stand in the graph: the fixed ones, or those that were loaded.
    ///
    /// # Errors
    /// 1 or 9, where the words are not those of a graph of these sizes.
    fn minutes(&self) -> Result<[u32; CLASSES], Refusal> {
        let answer = raw::minutes_of_graph(self.sizes(), self.words()[0]);
        Refusal::unless_accepted(answer.number, 0).map(|()| answer.minutes)
    }

    /// Adds a job by a worker, run whole in one call.
    ///
    /// # Errors
    /// 5 for wrong arguments, 6 for a prerequisite that no job has, 7 for a name that is there, 8 where it is full;
    /// 3 where the worker's call is half done.
    fn add(&mut self, worker: u32, job: &Job) -> Result<(), Refusal> {
        accepted(raw::add(self.sizes(), &mut self.tables(), worker, job.to_entry())).map(drop)
    }

    /// Finishes the job that the worker holds, run whole in one call. A job that ends as [`Outcome::Failed`] spoils those
    /// that need it: they are handed out all the same, told to be spoiled, and may only end as failed.
    ///
    /// # Errors
    /// 11 where the worker holds no job of that name; 19 for [`Outcome::Good`] where the job is spoiled; 3 where its call
    /// is half done.
    ///
    /// ```
    /// # use taskgraph::{Graph, Job, Outcome, Refusal, Sizes, TaskGraph};
    /// let mut graph = Graph::create(Sizes { jobs: 16, arcs: 64, bits: 4, workers: 1 })?;
    /// graph.add_all(0, &[Job::new(1, &[]), Job::new(2, &[1])])?;
    /// graph.get(0)?;
    /// graph.finish(0, 1, Outcome::Failed)?;
    /// assert_eq!(graph.get(0)?.map(|job| (job.name, job.spoiled)), Some((2, true)));
    /// assert_eq!(graph.finish(0, 2, Outcome::Good), Err(Refusal::GoodForSpoiled));
    /// graph.finish(0, 2, Outcome::Failed)?;
    /// # Ok::<(), Refusal>(())
    /// ```
    fn finish(&mut self, worker: u32, name: u32, outcome: Outcome) -> Result<(), Refusal> {
        let answer = accepted(raw::finish(self.sizes(), &mut self.tables(), worker, name, outcome.number()))?;
        // Only in damaged words does a list of arcs run in a circle; the steps come to its end.
        if answer.kind == kind::GOING_ON {
            // A 9 there is one in the middle of this call.
            let in_the_middle = |refusal| if refusal == Refusal::Damaged { Refusal::Stopped } else { refusal };
            return self.run(worker).map_err(in_the_middle);
        }
        Ok(())
    }

    /// Adds at most [`MAX_ENTRIES`] jobs in one call, each run whole, in order, and answers how the add of each ended. A
    /// refused one does not stop the next, so a job may list those before it. After [`Refusal::Stopped`] each later one is 3.
    ///
    /// # Errors
    /// Before any job, and with nothing changed: 16 for more jobs than one call takes, which
    /// [`add_all`](TaskGraph::add_all) splits; 3 where the worker's call is half done.
    ///
    /// ```
    /// # use taskgraph::{Graph, Job, Refusal, Sizes, TaskGraph};
    /// let mut graph = Graph::create(Sizes { jobs: 16, arcs: 64, bits: 4, workers: 1 })?;
    /// let sheet = [Job::new(1, &[]), Job::new(2, &[9]), Job::new(3, &[1])];
    /// assert_eq!(graph.add_sheet(0, &sheet)?, [Ok(()), Err(Refusal::UnknownName { place: 0 }), Ok(())]);
    /// assert_eq!(graph.add_sheet(0, &vec![Job::default(); 65]), Err(Refusal::Entries));
    /// # Ok::<(), Refusal>(())
    /// ```
    fn add_sheet(&mut self, worker: u32, jobs: &[Job]) -> Result<Vec<Result<(), Refusal>>, Refusal> {
        let rows: Vec<u32> = jobs.iter().flat_map(|job| job.to_entry().to_row()).collect();
        each_of(raw::add_sheet(self.sizes(), &mut self.tables(), worker, &rows), jobs.len())
    }

    /// Adds any number of jobs, [`MAX_ENTRIES`] in one call, and answers how the add of each ended.
    ///
    /// # Errors
    /// As [`add_sheet`](TaskGraph::add_sheet) for the first call, but for 16. A later call is turned away only after
    /// damage in an earlier one; each of its jobs is then refused by that number.
    fn add_all(&mut self, worker: u32, jobs: &[Job]) -> Result<Vec<Result<(), Refusal>>, Refusal> {
        in_parts(jobs, |part| self.add_sheet(worker, part))
    }

    /// Takes the waiting job with the most minutes, or none where no job waits. Of equal minutes it is the job that has
    /// waited longest. A spoiled job is taken like the others, and told.
    ///
    /// # Errors
    /// 10 where the worker holds a job; 3 where its call is half done.
    ///
    /// ```
    /// # use taskgraph::{Graph, Job, Outcome, Refusal, Sizes, TaskGraph};
    /// let mut graph = Graph::create(Sizes { jobs: 16, arcs: 64, bits: 4, workers: 1 })?;
    /// graph.add_all(0, &[Job::new(1, &[]), Job::new(2, &[]), Job { class: 15, ..Job::new(3, &[]) }])?;
    /// for name in [3, 1, 2] {
    ///     assert_eq!(graph.get(0)?.map(|job| job.name), Some(name));
    ///     graph.finish(0, name, Outcome::Good)?;
    /// }
    /// # Ok::<(), Refusal>(())
    /// ```
    fn get(&mut self, worker: u32) -> Result<Option<HandedOut>, Refusal> {
        let answer = accepted(raw::get(self.sizes(), &mut self.tables(), worker))?;
        let job = HandedOut { job: answer.job, name: answer.name, spoiled: answer.spoiled == 1 };
        Ok((answer.kind == kind::HANDED_OUT).then_some(job))
    }

    /// Posts an add, which [`step`](TaskGraph::step) then takes to its end.
    ///
    /// # Errors
    /// 5 for wrong arguments; 3 where the worker's call is half done.
    fn post_add(&mut self, worker: u32, job: &Job) -> Result<(), Refusal> {
        accepted(raw::post_add(self.sizes(), &mut self.tables(), worker, job.to_entry())).map(drop)
    }

    /// Posts a finish, which [`step`](TaskGraph::step) then takes to its end.
    ///
    /// # Errors
    /// As [`finish`](TaskGraph::finish).
    fn post_finish(&mut self, worker: u32, name: u32, outcome: Outcome) -> Result<(), Refusal> {
        accepted(raw::post_finish(self.sizes(), &mut self.tables(), worker, name, outcome.number())).map(drop)
    }

    /// One step of the worker's call.
    ///
    /// # Errors
    /// 6, 7 or 8, which end an add; 4 where the worker is idle.
    fn step(&mut self, worker: u32) -> Result<Progress, Refusal> {
        let answer = accepted(raw::step(self.sizes(), &mut self.tables(), worker))?;
        Ok(if answer.kind == kind::GOING_ON { Progress::GoingOn } else { Progress::Ended })
    }

    /// Steps the worker's call to its end.
    ///
    /// # Errors
    /// As [`step`](TaskGraph::step).
    fn run(&mut self, worker: u32) -> Result<(), Refusal> {
        while self.step(worker)? == Progress::GoingOn {}
        Ok(())
    }

    /// What a worker holds, and the call that it has half done.
    ///
    /// # Errors
    /// 2 where there is no such worker.
    fn held(&self, worker: u32) -> Result<Holding, Refusal> {
        Holding::of(raw::held(self.sizes(), self.words(), worker))
    }

    /// Whether no job waits, no worker holds one, and no call is half done. Where only these calls wrote the words,
    /// every job that entered is finished then.
    ///
    /// # Errors
    /// 1 or 9, where the words are not those of a graph of these sizes.
    fn drained(&self) -> Result<bool, Refusal> {
        let answer = raw::drained(self.sizes(), self.words());
        Refusal::unless_accepted(answer.number, 0)?;
        Ok(answer.drained == 1)
    }

    /// The jobs and minutes under each label, by the minutes that stand in the graph.
    ///
    /// # Errors
    /// 1 or 9, where the words are not those of a graph of these sizes.
    fn totals(&self) -> Result<Totals, Refusal> {
        Totals::of(raw::totals_of_graph(self.sizes(), self.words()[0]))
    }
}

/// How the adds of a sheet of so many jobs ended, or why it was turned away.
fn each_of(added: SheetAdded, jobs: usize) -> Result<Vec<Result<(), Refusal>>, Refusal> {
    Refusal::unless_accepted(added.number, 0)?;
    let answers = added.numbers.iter().zip(&added.places).take(jobs);
    let mut answers: Vec<_> =
        answers.map(|(number, place)| Refusal::unless_accepted(*number, *place as usize)).collect();
    // 1 more than the number of the entry that damage stopped half done, or 0
    if let Some(stopped) = (added.stopped as usize).checked_sub(1).and_then(|entry| answers.get_mut(entry)) {
        *stopped = Err(Refusal::Stopped);
    }
    Ok(answers)
}

/// Adds parts of at most [`MAX_ENTRIES`] jobs; the first is also taken where there are no jobs.
pub(crate) fn in_parts<E: TurnedAway>(
    jobs: &[Job],
    mut add: impl FnMut(&[Job]) -> Result<Vec<Result<(), Refusal>>, E>,
) -> Result<Vec<Result<(), Refusal>>, E> {
    let (first, rest) = jobs.split_at(jobs.len().min(MAX_ENTRIES));
    let mut answers = add(first)?;
    for part in rest.chunks(MAX_ENTRIES) {
        match add(part) {
            Ok(more) => answers.extend(more),
            Err(error) => {
                let refusal = error.turned_away()?;
                answers.extend(part.iter().map(|_| Err(refusal)));
            }
        }
    }
    Ok(answers)
}

/// An error that may be a refusal.
pub(crate) trait TurnedAway: Sized {
    /// The refusal, or the error that is none.
    fn turned_away(self) -> Result<Refusal, Self>;
}

impl TurnedAway for Refusal {
    fn turned_away(self) -> Result<Refusal, Refusal> {
        Ok(self)
    }
}

fn accepted(answer: Answer) -> Result<Answer, Refusal> {
    if answer.kind == kind::STOPPED {
        return Err(Refusal::Stopped);
    }
    Refusal::unless_accepted(answer.number, answer.place as usize).map(|()| answer)
}

/// The words that each table needs, or [`Refusal::Size`].
pub(crate) fn words_needed(sizes: Sizes) -> Result<[usize; 5], Refusal> {
    let need = raw::words_needed(sizes);
    Refusal::unless_accepted(need.number, 0)?;
    Ok([need.jobs, need.arcs, need.buckets, need.queue, need.workers])
}

/// Makes a fresh graph of tables.
pub(crate) fn lay_out(sizes: Sizes, tables: &mut Tables) -> Result<(), Refusal> {
    accepted(raw::lay_out(sizes, tables)).map(drop)
}

/// A task graph in memory of its own.
#[derive(Clone, Debug)]
pub struct Graph {
    sizes: Sizes,
    words: [Vec<u32>; 5],
}

impl Graph {
    /// A fresh graph.
    ///
    /// # Errors
    /// [`Refusal::Size`] where a size is out of range.
    pub fn create(sizes: Sizes) -> Result<Graph, Refusal> {
        let words = words_needed(sizes)?.map(|need| vec![0; need]);
        let mut graph = Graph { sizes, words };
        lay_out(sizes, &mut graph.tables())?;
        Ok(graph)
    }
}

impl TaskGraph for Graph {
    fn sizes(&self) -> Sizes {
        self.sizes
    }

    fn words(&self) -> [&[u32]; 5] {
        let [jobs, arcs, buckets, queue, workers] = &self.words;
        [jobs, arcs, buckets, queue, workers]
    }

    fn tables(&mut self) -> Tables<'_> {
        let [jobs, arcs, buckets, queue, workers] = &mut self.words;
        Tables { jobs, arcs, buckets, queue, workers }
    }
}
