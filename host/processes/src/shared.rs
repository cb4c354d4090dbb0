//! What the processes share: the graph with its lock, and a file of words that say who is at what, which are read and
//! written under the same lock.

use std::{
    error::Error,
    fs::{File, OpenOptions},
    os::unix::fs::FileExt,
    path::Path,
};

use compare_graph::layout::{cell_at, job, job_at, MADE, PUT, TAKEN};
use taskgraph::{Locked, Refusal, SharedGraph, Sizes, TaskGraph};

pub const WORKERS: usize = 16;
pub const JOBS: usize = 4_096;
pub const ARCS: usize = 32_768;

const SIZES: Sizes = Sizes { jobs: JOBS as u32, arcs: ARCS as u32, bits: 8, workers: WORKERS as u32 };

/// The words: the next ticket, the next job to add, a bit for each dead worker, the next place of the queue to look at,
/// who loaded minutes last, a word for each worker that is busy, and a word for each job's add. A word that is not yet
/// written is 0.
const TICKET: usize = 0;
const NEXT: usize = 1;
const DEAD: usize = 2;
const SEEN: usize = 3;
const LOADER: usize = 4;
const BUSY: usize = 5;
const ADDS: usize = BUSY + WORKERS;
const WORDS: usize = ADDS + JOBS;

/// How far the add of a job has come; any other number is one more than the number of the worker that adds it.
const UNCLAIMED: u32 = 0;
const ADDED: u32 = 100;
const GIVEN_UP: u32 = 101;

pub type Fallible<T> = Result<T, Box<dyn Error>>;

pub struct Shared {
    graph: SharedGraph,
    words: File,
}

impl Shared {
    /// Makes a fresh graph and fresh words in a folder.
    pub fn create(folder: &Path) -> Fallible<Shared> {
        let words = OpenOptions::new().read(true).write(true).create_new(true).open(folder.join("words"))?;
        words.set_len(4 * WORDS as u64)?;
        Ok(Shared { graph: SharedGraph::create(folder.join("graph"), SIZES)?, words })
    }

    pub fn open(folder: &Path) -> Fallible<Shared> {
        let words = OpenOptions::new().read(true).write(true).open(folder.join("words"))?;
        Ok(Shared { graph: SharedGraph::open(folder.join("graph"))?, words })
    }

    pub fn lock(&self) -> Fallible<Held<'_>> {
        Ok(Held { graph: self.graph.lock()?, words: &self.words })
    }

    /// A number that is higher each time any process asks.
    pub fn ticket(&self) -> Fallible<u32> {
        let held = self.lock()?;
        let ticket = held.word(TICKET)?;
        held.set(TICKET, ticket + 1)?;
        Ok(ticket)
    }
}

/// The graph and the words, held by this process alone.
pub struct Held<'a> {
    pub graph: Locked<'a>,
    words: &'a File,
}

impl Held<'_> {
    fn word(&self, place: usize) -> Fallible<u32> {
        let mut bytes = [0; 4];
        self.words.read_exact_at(&mut bytes, 4 * place as u64)?;
        Ok(u32::from_le_bytes(bytes))
    }

    fn set(&self, place: usize, value: u32) -> Fallible<()> {
        Ok(self.words.write_all_at(&value.to_le_bytes(), 4 * place as u64)?)
    }

    /// Loads minutes, and says whether they were taken: they must be exactly if no job has entered.
    pub fn load(&mut self, loader: usize, minutes: &[u32]) -> Fallible<bool> {
        let entered = self.graph.words()[0][MADE] > 0;
        match self.graph.load_minutes(minutes) {
            Ok(()) if !entered => {
                self.set(LOADER, loader as u32)?;
                Ok(true)
            }
            Err(Refusal::Entered) if entered => Ok(false),
            answer => Err(format!("a load was answered {answer:?}, and that a job has entered is {entered}").into()),
        }
    }

    /// Tries to load minutes that are none, which is refused whether a job has entered or not.
    pub fn load_wrong(&mut self, minutes: &[u32]) -> Fallible<()> {
        match self.graph.load_minutes(minutes) {
            Err(Refusal::Minutes) => Ok(()),
            answer => Err(format!("a load of {minutes:?} was answered {answer:?}").into()),
        }
    }

    /// Who loaded the minutes that stand in the graph.
    pub fn loader(&self) -> Fallible<usize> {
        Ok(self.word(LOADER)? as usize)
    }

    /// How many tickets were given out.
    pub fn tickets(&self) -> Fallible<u32> {
        self.word(TICKET)
    }

    /// How many jobs were taken from the queue, and how many put in it.
    pub fn queue_counters(&self) -> (usize, usize) {
        let [_, _, _, queue, _] = self.graph.words();
        (queue[TAKEN] as usize, queue[PUT] as usize)
    }

    /// The places of the queue that were not looked at before, with the names of their jobs. Only a get takes a job from
    /// its place, so that all are found if each get looks first.
    pub fn look_at_queue(&self) -> Fallible<Vec<(usize, u32)>> {
        let [jobs, _, _, queue, _] = self.graph.words();
        let (_, put) = self.queue_counters();
        let name = |place: usize| jobs[job_at(queue[cell_at(place)] as usize) + job::NAME];
        let found = (self.word(SEEN)? as usize..put).map(|place| (place, name(place))).collect();
        self.set(SEEN, put as u32)?;
        Ok(found)
    }

    /// The next jobs that nobody adds yet, as many as are wanted and there.
    pub fn claim(&self, worker: u32, wanted: usize) -> Fallible<Vec<usize>> {
        let first = self.word(NEXT)? as usize;
        let claimed: Vec<usize> = (first..JOBS).take(wanted).collect();
        self.set(NEXT, (first + claimed.len()) as u32)?;
        for job in &claimed {
            self.set(ADDS + job, 1 + worker)?;
        }
        Ok(claimed)
    }

    /// Whether a job that is not yet there will never be.
    pub fn is_lost(&self, job: usize) -> Fallible<bool> {
        Ok(match self.word(ADDS + job)? {
            UNCLAIMED | ADDED => false,
            GIVEN_UP => true,
            claimed => self.word(DEAD)? & 1 << (claimed - 1) != 0,
        })
    }

    pub fn set_added(&self, job: usize) -> Fallible<()> {
        self.set(ADDS + job, ADDED)
    }

    pub fn give_up(&self, job: usize) -> Fallible<()> {
        self.set(ADDS + job, GIVEN_UP)
    }

    pub fn set_dead(&self, worker: u32) -> Fallible<()> {
        self.set(DEAD, self.word(DEAD)? | 1 << worker)?;
        self.set_busy(worker, false)
    }

    /// Whether a worker holds a job, has a call half done, or has a job to add.
    pub fn set_busy(&self, worker: u32, busy: bool) -> Fallible<()> {
        self.set(BUSY + worker as usize, u32::from(busy))
    }

    /// All jobs are claimed, and no living worker is at anything.
    pub fn is_over(&self) -> Fallible<bool> {
        let mut busy = [0; 4 * WORKERS];
        self.words.read_exact_at(&mut busy, 4 * BUSY as u64)?;
        Ok(self.word(NEXT)? as usize == JOBS && busy.iter().all(|byte| *byte == 0))
    }
}
