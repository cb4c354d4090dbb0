//! A task graph in a file that several processes map, with one lock round each call.

mod error;
mod file;
mod mapping;
mod mutex;

use std::{fmt, marker::PhantomData, path::Path};

use file::{SharedFile, TORN, WHOLE, WRITING};

use crate::{
    graph::{in_parts, TurnedAway},
    raw::{Sizes, Tables, CLASSES},
    HandedOut, Holding, Job, Outcome, Progress, Refusal, TaskGraph, Totals,
};

pub use error::SharedError;

/// A task graph in a file that several processes map, with one lock round each call or step.
///
/// Each process opens the file and acts for workers of its own: at any time one process, and one thread of it, acts
/// for a worker. The file belongs in a folder in memory, such as `/dev/shm`, so that it goes with the machine.
///
/// # When a process dies
///
/// The lock is freed, and the others go on:
///
/// - Between two calls or steps: the words are what its last step left. A job that it held stays held, and a call half
///   done stays half done, until a successor that acts for the same worker learns of them from
///   [`held`](SharedGraph::held), takes the call to its end with [`run`](SharedGraph::run), and finishes the job. Other
///   workers are served meanwhile.
/// - While it held the lock, before a call had begun: nothing is lost.
/// - While it held the lock, after a call had begun: some words of that call may be written and others not. No
///   statement of the library covers such words; a later call might answer 9, or do the wrong thing. So every later
///   call, in each process, fails with [`SharedError::Torn`], and the graph must be created anew.
///
/// # What is assumed
///
/// Nobody writes or shortens the file but through this package, and all processes use the same C library.
pub struct SharedGraph {
    file: SharedFile,
}

// SAFETY: the words are used only by the thread that has the lock, and all else in the file is constant or atomic.
unsafe impl Send for SharedGraph {}
// SAFETY: as above.
unsafe impl Sync for SharedGraph {}

impl fmt::Debug for SharedGraph {
    fn fmt(&self, f: &mut fmt::Formatter<'_>) -> fmt::Result {
        f.debug_struct("SharedGraph").field("sizes", &self.sizes()).finish_non_exhaustive()
    }
}

impl SharedGraph {
    /// Makes the file of a fresh graph. Other processes find it under its name only when it is whole.
    ///
    /// # Errors
    /// [`Refusal::Size`] where a size is out of range, or what the system says, for instance that there is such a
    /// file already.
    pub fn create(path: impl AsRef<Path>, sizes: Sizes) -> Result<SharedGraph, SharedError> {
        SharedFile::create(path.as_ref(), sizes).map(|file| SharedGraph { file })
    }

    /// Opens a file that [`create`](SharedGraph::create) made.
    ///
    /// # Errors
    /// [`SharedError::Foreign`] where it is none, or what the system says.
    pub fn open(path: impl AsRef<Path>) -> Result<SharedGraph, SharedError> {
        SharedFile::open(path.as_ref()).map(|file| SharedGraph { file })
    }

    /// The sizes that it was created with.
    pub fn sizes(&self) -> Sizes {
        self.file.sizes()
    }

    /// Waits for the lock, and gives the graph for as many calls as are wanted under it.
    ///
    /// # Errors
    /// [`SharedError::Torn`], or what the system says, for instance that this thread has the lock already.
    pub fn lock(&self) -> Result<Locked<'_>, SharedError> {
        let holder_died = self.file.header().mutex.lock()?;
        let locked = Locked { file: &self.file, of_this_thread: PhantomData };
        if holder_died && self.file.state() == WRITING {
            self.file.set_state(TORN);
        }
        if self.file.state() == TORN {
            return Err(SharedError::Torn);
        }
        Ok(locked)
    }

    /// One call under a lock of its own.
    fn call<T>(&self, call: impl FnOnce(&mut Locked) -> Result<T, Refusal>) -> Result<T, SharedError> {
        Ok(call(&mut self.lock()?)?)
    }

    /// Loads a district's minutes in place of the fixed ones, before the first job enters.
    ///
    /// # Errors
    /// As [`TaskGraph::load_minutes`], and as [`lock`](SharedGraph::lock).
    pub fn load_minutes(&self, minutes: &[u32]) -> Result<(), SharedError> {
        self.call(|graph| graph.load_minutes(minutes))
    }

    /// The minutes of each class that stand in the graph.
    ///
    /// # Errors
    /// As [`TaskGraph::minutes`], and as [`lock`](SharedGraph::lock).
    pub fn minutes(&self) -> Result<[u32; CLASSES], SharedError> {
        self.call(|graph| graph.minutes())
    }

    /// Adds a job by a worker, run whole under one lock.
    ///
    /// Where the lock should be free between the steps, for a long list beside other workers, it is
    /// `graph.lock()?.post_add(worker, job)?` and then [`run`](SharedGraph::run).
    ///
    /// # Errors
    /// As [`TaskGraph::add`], and as [`lock`](SharedGraph::lock).
    pub fn add(&self, worker: u32, job: &Job) -> Result<(), SharedError> {
        self.call(|graph| graph.add(worker, job))
    }

    /// Finishes the job that the worker holds, run whole under one lock.
    ///
    /// # Errors
    /// As [`TaskGraph::finish`], and as [`lock`](SharedGraph::lock).
    pub fn finish(&self, worker: u32, name: u32, outcome: Outcome) -> Result<(), SharedError> {
        self.call(|graph| graph.finish(worker, name, outcome))
    }

    /// Adds at most [`MAX_ENTRIES`](crate::raw::MAX_ENTRIES) jobs in one call, each run whole, all under one lock.
    ///
    /// # Errors
    /// As [`TaskGraph::add_sheet`], and as [`lock`](SharedGraph::lock).
    pub fn add_sheet(&self, worker: u32, jobs: &[Job]) -> Result<Vec<Result<(), Refusal>>, SharedError> {
        self.call(|graph| graph.add_sheet(worker, jobs))
    }

    /// Adds any number of jobs in parts, with the lock round each part: other workers' calls may come between.
    ///
    /// # Errors
    /// As [`TaskGraph::add_all`], and as [`lock`](SharedGraph::lock).
    pub fn add_all(&self, worker: u32, jobs: &[Job]) -> Result<Vec<Result<(), Refusal>>, SharedError> {
        in_parts(jobs, |part| self.add_sheet(worker, part))
    }

    /// Steps the worker's call to its end, with the lock round each step; also a call that a process left half done.
    ///
    /// # Errors
    /// As [`TaskGraph::step`], and as [`lock`](SharedGraph::lock).
    pub fn run(&self, worker: u32) -> Result<(), SharedError> {
        while self.call(|graph| graph.step(worker))? == Progress::GoingOn {}
        Ok(())
    }

    /// Takes the waiting job with the most minutes, of equal minutes the one that has waited longest, or none where no
    /// job waits.
    ///
    /// # Errors
    /// As [`TaskGraph::get`], and as [`lock`](SharedGraph::lock).
    pub fn get(&self, worker: u32) -> Result<Option<HandedOut>, SharedError> {
        self.call(|graph| graph.get(worker))
    }

    /// What a worker holds, and the call that it has half done.
    ///
    /// # Errors
    /// As [`TaskGraph::held`], and as [`lock`](SharedGraph::lock).
    pub fn held(&self, worker: u32) -> Result<Holding, SharedError> {
        self.call(|graph| graph.held(worker))
    }

    /// Whether no job waits, no worker holds one, and no call is half done.
    ///
    /// # Errors
    /// As [`TaskGraph::drained`], and as [`lock`](SharedGraph::lock).
    pub fn drained(&self) -> Result<bool, SharedError> {
        self.call(|graph| graph.drained())
    }

    /// The jobs and minutes under each label, by the minutes that stand in the graph.
    ///
    /// # Errors
    /// As [`TaskGraph::totals`], and as [`lock`](SharedGraph::lock).
    pub fn totals(&self) -> Result<Totals, SharedError> {
        self.call(|graph| graph.totals())
    }
}

impl TurnedAway for SharedError {
    fn turned_away(self) -> Result<Refusal, SharedError> {
        match self {
            SharedError::Refused(refusal) => Ok(refusal),
            error => Err(error),
        }
    }
}

/// A shared graph while this thread has its lock. The lock is freed when this value is dropped.
pub struct Locked<'a> {
    file: &'a SharedFile,
    /// The lock must be freed by the thread that took it, so this is not sent to another.
    of_this_thread: PhantomData<*const ()>,
}

impl TaskGraph for Locked<'_> {
    fn sizes(&self) -> Sizes {
        self.file.sizes()
    }

    fn words(&self) -> [&[u32]; 5] {
        // SAFETY: this thread has the lock, and the words are lent for reading as long as this is borrowed.
        unsafe { self.file.words() }
    }

    fn tables(&mut self) -> Tables<'_> {
        // From here on a call may be writing; that it was cut short is then seen by whoever locks next.
        self.file.set_state(WRITING);
        // SAFETY: this thread has the lock, and the words are lent once as long as this is borrowed.
        unsafe { self.file.tables() }
    }
}

impl Drop for Locked<'_> {
    fn drop(&mut self) {
        if self.file.state() == WRITING {
            self.file.set_state(WHOLE);
        }
        // SAFETY: this thread has the lock.
        unsafe { self.file.header().mutex.unlock() };
    }
}

impl fmt::Debug for Locked<'_> {
    fn fmt(&self, f: &mut fmt::Formatter<'_>) -> fmt::Result {
        f.debug_struct("Locked").field("sizes", &self.sizes()).finish_non_exhaustive()
    }
}
