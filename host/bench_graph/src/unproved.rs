//! The rules of docs/RULES.md over the same tables of words with the same tests, in plain unproved Rust:
//! what the proved library is timed beside. The calls are never inlined, as those of the library cannot be.
//!
//! Where `INDEXED` is false, there is no index, the queue has a word for each place, and a get takes the job that
//! entered it first: by this is seen what the index costs.

mod index;
mod inlined;
mod whole;

use compare_graph::layout::{
    job, phase, worker, ARCS_HEADER, ARC_WORDS, JOBS_HEADER, JOB_WORDS, MINUTES, NONE, QUEUE_HEADER, WORKER_WORDS,
};
use taskgraph::raw::{kind, Answer, Entry, Sizes, Tables, CLASSES, GOOD, MAX_MINUTES};

pub use whole::{add, add_sheet, finish};

const FACTOR: u32 = 2_654_435_769;

const MAX_NAMES: u32 = 32;
const MAX_CLASS: u32 = 15;
const MAX_GROWER: u32 = 65_535;
const FIXED_MINUTES: [u32; CLASSES] = [1, 2, 3, 5, 8, 10, 15, 20, 30, 45, 60, 90, 120, 180, 240, 480];

const UNEXECUTED: u32 = 0;
const EXECUTING: u32 = 1;
const FINISHED: u32 = 2;

/// An outcome that is failed, a mark that says spoiled, and a note that says either.
const SET: u32 = 1;

/// A refusal's number, and for number 6 the place.
type Refusal = (u32, u32);

const DAMAGED: Refusal = (9, 0);

type Outcome<T> = Result<T, Refusal>;

fn answer(kind: u32) -> Answer {
    Answer { kind, ..Answer::default() }
}

fn answered(outcome: Outcome<Answer>) -> Answer {
    outcome.unwrap_or_else(|(number, place)| Answer { number, place, ..answer(kind::REFUSED) })
}

/// The words that each table needs, or `None` where a size is off its limits.
#[inline(always)]
pub fn words_needed<const INDEXED: bool>(sizes: Sizes) -> Option<[usize; 5]> {
    let within = (1..=4_096).contains(&sizes.jobs)
        && sizes.arcs <= 32_768
        && (1..=8).contains(&sizes.bits)
        && (1..=16).contains(&sizes.workers);
    within.then(|| {
        [
            JOBS_HEADER + JOB_WORDS * sizes.jobs as usize,
            ARCS_HEADER + ARC_WORDS * sizes.arcs as usize,
            1 << sizes.bits,
            QUEUE_HEADER + Graph::<INDEXED>::PLACE_WORDS * sizes.jobs as usize,
            WORKER_WORDS * sizes.workers as usize,
        ]
    })
}

/// The tables, each with at least the words it needs.
struct Graph<'a, const INDEXED: bool> {
    sizes: Sizes,
    jobs: &'a mut [u32],
    arcs: &'a mut [u32],
    buckets: &'a mut [u32],
    queue: &'a mut [u32],
    workers: &'a mut [u32],
}

impl<'a, const INDEXED: bool> Graph<'a, INDEXED> {
    /// The tables cut to their need; 1 where one is too short or a size off its limits.
    #[inline(always)]
    fn lent(sizes: Sizes, tables: &'a mut Tables) -> Outcome<Self> {
        let [jobs, arcs, buckets, queue, workers] = words_needed::<INDEXED>(sizes).ok_or((1, 0))?;
        Ok(Graph {
            sizes,
            jobs: tables.jobs.get_mut(..jobs).ok_or((1, 0))?,
            arcs: tables.arcs.get_mut(..arcs).ok_or((1, 0))?,
            buckets: tables.buckets.get_mut(..buckets).ok_or((1, 0))?,
            queue: tables.queue.get_mut(..queue).ok_or((1, 0))?,
            workers: tables.workers.get_mut(..workers).ok_or((1, 0))?,
        })
    }

    /// Number 1: the graph of the sizes that were laid out.
    #[inline(always)]
    fn sized(sizes: Sizes, tables: &'a mut Tables) -> Outcome<Self> {
        let graph = Self::lent(sizes, tables)?;
        if graph.jobs[..4] != [sizes.jobs, sizes.arcs, sizes.bits, sizes.workers] {
            return Err((1, 0));
        }
        Ok(graph)
    }

    /// Numbers 1, 2 and 9 for the worker's own words: the graph, and where the worker's record starts.
    #[inline(always)]
    fn admitted(sizes: Sizes, tables: &'a mut Tables, worker: u32) -> Outcome<(Self, usize)> {
        let graph = Self::sized(sizes, tables)?;
        if worker >= sizes.workers {
            return Err((2, 0));
        }
        let at = WORKER_WORDS * worker as usize;
        if !graph.own_words_fit(at) {
            return Err(DAMAGED);
        }
        Ok((graph, at))
    }

    fn own_words_fit(&self, at: usize) -> bool {
        let own = &self.workers[at..at + worker::NAMES];
        let job_fits = |place: u32| place == NONE || self.job_in_use(place);
        own[worker::PHASE] <= phase::NOTIFYING
            && job_fits(own[worker::HELD])
            && own[worker::COUNT] <= MAX_NAMES
            && own[worker::CLASS] <= MAX_CLASS
            && own[worker::GROWER] <= MAX_GROWER
            && own[worker::TALLY] <= own[worker::COUNT]
            && own[worker::PLACE] <= own[worker::COUNT]
            && job_fits(own[worker::JOB])
            && self.arc_fits(own[worker::ARC])
            && own[worker::NOTE] <= SET
    }

    fn made(&self) -> u32 {
        self.jobs[4]
    }

    fn reserved(&self) -> u32 {
        self.arcs[0]
    }

    fn job_in_use(&self, place: u32) -> bool {
        place < self.made() && place < self.sizes.jobs
    }

    fn arc_in_use(&self, place: u32) -> bool {
        place < self.reserved() && place < self.sizes.arcs
    }

    /// None, or in use.
    fn arc_fits(&self, place: u32) -> bool {
        place == NONE || self.arc_in_use(place)
    }

    fn job(&mut self, number: u32) -> &mut [u32] {
        let at = JOBS_HEADER + JOB_WORDS * number as usize;
        &mut self.jobs[at..at + JOB_WORDS]
    }

    fn arc(&mut self, number: u32) -> &mut [u32] {
        let at = ARCS_HEADER + ARC_WORDS * number as usize;
        &mut self.arcs[at..at + ARC_WORDS]
    }

    fn bucket(&self, name: u32) -> usize {
        (name.wrapping_mul(FACTOR) >> (32 - self.sizes.bits)) as usize
    }

    /// Damage where more jobs were made or arcs reserved than the tables have.
    fn judge_counters(&self) -> Outcome<()> {
        if self.made() <= self.sizes.jobs && self.reserved() <= self.sizes.arcs {
            Ok(())
        } else {
            Err(DAMAGED)
        }
    }

    /// The job of a name, or none; a walk that strays or passes more jobs than were made is damage.
    fn find(&self, name: u32) -> Outcome<u32> {
        let mut place = self.buckets[self.bucket(name)];
        for _ in 0..self.made() {
            if place == NONE {
                return Ok(NONE);
            }
            if place >= self.made() {
                return Err(DAMAGED);
            }
            let at = JOBS_HEADER + JOB_WORDS * place as usize;
            if self.jobs[at + job::NAME] == name {
                return Ok(place);
            }
            place = self.jobs[at + job::NEXT];
        }
        if place == NONE {
            Ok(NONE)
        } else {
            Err(DAMAGED)
        }
    }

    /// The words of the worker's call, put back to those of an idle worker.
    fn clear(&mut self, at: usize) {
        let own = &mut self.workers[at..at + WORKER_WORDS];
        own[worker::PHASE] = phase::IDLE;
        own[worker::NAME..=worker::PLACE].fill(0);
        own[worker::JOB] = NONE;
        own[worker::ARC] = NONE;
        own[worker::NOTE..].fill(0);
    }

    fn look_up(&mut self, at: usize) -> Outcome<Answer> {
        let place = self.workers[at + worker::PLACE];
        let name = self.workers[at + worker::NAMES + place as usize];
        if self.find(name)? == NONE {
            self.clear(at);
            return Err((6, place));
        }
        self.workers[at + worker::PLACE] = place + 1;
        Ok(answer(kind::GOING_ON))
    }

    fn enter(&mut self, at: usize) -> Outcome<Answer> {
        let own = &self.workers[at..at + worker::NAMES];
        let (name, count, class, grower) =
            (own[worker::NAME], own[worker::COUNT], own[worker::CLASS], own[worker::GROWER]);
        let (made, reserved) = (self.made(), self.reserved());
        let present = self.find(name)? != NONE;
        if present || made == self.sizes.jobs || self.sizes.arcs - reserved < count {
            self.clear(at);
            return Err((if present { 7 } else { 8 }, 0));
        }
        let bucket = self.bucket(name);
        let head = self.buckets[bucket];
        self.job(made).copy_from_slice(&[name, UNEXECUTED, count, class, grower, NONE, NONE, head, 0, 0]);
        self.buckets[bucket] = made;
        self.jobs[4] = made + 1;
        self.arcs[0] = reserved + count;
        let own = &mut self.workers[at..at + worker::NAMES];
        own[worker::PHASE] = phase::LINKING;
        own[worker::PLACE] = 0;
        own[worker::JOB] = made;
        own[worker::ARC] = if count == 0 { NONE } else { reserved };
        Ok(answer(kind::GOING_ON))
    }

    fn link(&mut self, at: usize) -> Outcome<Answer> {
        let own = &self.workers[at..at + WORKER_WORDS];
        let (dependent, base, place) = (own[worker::JOB], own[worker::ARC], own[worker::PLACE]);
        let name = own[worker::NAMES + place as usize];
        let prerequisite = self.find(name)?;
        if prerequisite == NONE {
            return Err(DAMAGED);
        }
        let label = self.job(prerequisite)[job::LABEL];
        if label > FINISHED {
            return Err(DAMAGED);
        }
        if label == FINISHED {
            let outcome = self.job(prerequisite)[job::OUTCOME];
            if outcome > SET {
                return Err(DAMAGED);
            }
            self.workers[at + worker::TALLY] += 1;
            if outcome == SET {
                self.workers[at + worker::NOTE] = SET;
            }
        } else {
            let last = self.job(prerequisite)[job::LAST];
            let fits = dependent < self.made()
                && base < self.reserved()
                && base + place < self.reserved()
                && self.arc_fits(last);
            if !fits {
                return Err(DAMAGED);
            }
            self.append(prerequisite, last, base + place, dependent);
        }
        self.workers[at + worker::PLACE] = place + 1;
        Ok(answer(kind::GOING_ON))
    }

    fn append(&mut self, prerequisite: u32, last: u32, arc: u32, dependent: u32) {
        self.arc(arc).copy_from_slice(&[dependent, NONE]);
        if last == NONE {
            self.job(prerequisite)[job::FIRST] = arc;
        } else {
            self.arc(last)[1] = arc;
        }
        self.job(prerequisite)[job::LAST] = arc;
    }

    fn settle(&mut self, at: usize) -> Outcome<Answer> {
        let own = &self.workers[at..at + worker::NAMES];
        let (number, tally, listed, note) =
            (own[worker::JOB], own[worker::TALLY], own[worker::COUNT], own[worker::NOTE]);
        if number == NONE {
            return Err(DAMAGED);
        }
        let count = self.job(number)[job::COUNT];
        if count > MAX_NAMES || tally > count {
            return Err(DAMAGED);
        }
        let queues = count == tally && (tally > 0 || listed == 0);
        if queues {
            let seat = self.seat_for(self.job_read(number)[job::CLASS])?;
            self.enqueue(seat, number);
        }
        self.job(number)[job::COUNT] = count - tally;
        self.spoil(number, note);
        self.clear(at);
        Ok(answer(kind::ENDED))
    }

    /// Marks a job where the note is set; its mark is not read.
    #[inline(always)]
    fn spoil(&mut self, number: u32, note: u32) {
        if note == SET {
            self.job(number)[job::MARK] = SET;
        }
    }

    fn mark(&mut self, at: usize) -> Outcome<Answer> {
        let held = self.workers[at + worker::HELD];
        if held == NONE {
            return Err(DAMAGED);
        }
        let first = self.job(held)[job::FIRST];
        if self.job(held)[job::LABEL] != EXECUTING || !self.arc_fits(first) {
            return Err(DAMAGED);
        }
        let note = self.workers[at + worker::NOTE];
        self.job(held)[job::LABEL] = FINISHED;
        self.job(held)[job::OUTCOME] = note;
        self.workers[at + worker::HELD] = NONE;
        self.workers[at + worker::PHASE] = phase::NOTIFYING;
        Ok(self.go_on(at, first))
    }

    fn notify(&mut self, at: usize) -> Outcome<Answer> {
        let arc = self.workers[at + worker::ARC];
        if arc == NONE {
            return Err(DAMAGED);
        }
        let (dependent, next) = (self.arc(arc)[0], self.arc(arc)[1]);
        if dependent >= self.made() || !self.arc_fits(next) {
            return Err(DAMAGED);
        }
        let count = self.job(dependent)[job::COUNT];
        if count == 0 || count > MAX_NAMES {
            return Err(DAMAGED);
        }
        if count == 1 {
            let seat = self.seat_for(self.job_read(dependent)[job::CLASS])?;
            self.enqueue(seat, dependent);
        }
        self.job(dependent)[job::COUNT] = count - 1;
        self.spoil(dependent, self.workers[at + worker::NOTE]);
        Ok(self.go_on(at, next))
    }

    /// A finish goes on with an arc, or ends where there is none.
    fn go_on(&mut self, at: usize, arc: u32) -> Answer {
        if arc == NONE {
            self.clear(at);
            return answer(kind::ENDED);
        }
        self.workers[at + worker::ARC] = arc;
        answer(kind::GOING_ON)
    }

    fn take(&mut self, at: usize) -> Outcome<Answer> {
        let (taken, put) = self.queue_counters()?;
        if taken == put {
            return Ok(answer(kind::NONE_READY));
        }
        let (seat, number) = self.first_seat(taken, put)?;
        let spoiled = self.job(number)[job::MARK];
        if self.job(number)[job::LABEL] != UNEXECUTED || spoiled > SET {
            return Err(DAMAGED);
        }
        self.dequeue(seat, taken);
        self.job(number)[job::LABEL] = EXECUTING;
        self.workers[at + worker::HELD] = number;
        Ok(Answer { job: number, name: self.job(number)[job::NAME], spoiled, ..answer(kind::HANDED_OUT) })
    }

    /// What turns away the finish of a held job: its mark, or 19 where it is spoiled and ends as good.
    #[inline(always)]
    fn judge_outcome(&self, held: u32, outcome: u32) -> Outcome<()> {
        match self.job_read(held)[job::MARK] {
            0 => Ok(()),
            SET if outcome != GOOD => Ok(()),
            SET => Err((19, 0)),
            _ => Err(DAMAGED),
        }
    }
}

#[inline(never)]
pub fn lay_out<const INDEXED: bool>(sizes: Sizes, tables: &mut Tables) -> Answer {
    answered(Graph::<INDEXED>::lent(sizes, tables).map(|mut graph| {
        graph.jobs[..MINUTES].copy_from_slice(&[sizes.jobs, sizes.arcs, sizes.bits, sizes.workers, 0]);
        graph.jobs[MINUTES..JOBS_HEADER].copy_from_slice(&FIXED_MINUTES);
        for job in graph.jobs[JOBS_HEADER..].chunks_exact_mut(JOB_WORDS) {
            job.copy_from_slice(&[0, 0, 0, 0, 0, NONE, NONE, NONE, 0, 0]);
        }
        graph.arcs[0] = 0;
        graph.arcs[ARCS_HEADER..].fill(NONE);
        graph.buckets.fill(NONE);
        graph.queue[..QUEUE_HEADER].fill(0);
        graph.queue[QUEUE_HEADER..].fill(NONE);
        for number in 0..sizes.workers as usize {
            graph.clear(WORKER_WORDS * number);
            graph.workers[WORKER_WORDS * number + worker::HELD] = NONE;
        }
        answer(kind::LAID_OUT)
    }))
}

fn minutes_rise(minutes: &[u32]) -> bool {
    let ends_fit = minutes.len() == CLASSES && minutes[0] >= 1 && minutes[CLASSES - 1] <= MAX_MINUTES;
    ends_fit && minutes.windows(2).all(|pair| pair[0] < pair[1])
}

#[inline(never)]
pub fn load_minutes<const INDEXED: bool>(sizes: Sizes, tables: &mut Tables, minutes: &[u32]) -> Answer {
    answered(Graph::<INDEXED>::sized(sizes, tables).and_then(|graph| {
        if !minutes_rise(minutes) {
            return Err((17, 0));
        }
        match graph.made() {
            0 => {
                graph.jobs[MINUTES..JOBS_HEADER].copy_from_slice(minutes);
                Ok(answer(kind::LOADED))
            }
            made if made > sizes.jobs => Err(DAMAGED),
            _ => Err((18, 0)),
        }
    }))
}

fn arguments_fit(entry: &Entry) -> bool {
    if entry.class > MAX_CLASS || entry.grower > MAX_GROWER || entry.count > MAX_NAMES {
        return false;
    }
    let list = &entry.names[..entry.count as usize];
    list.iter().enumerate().all(|(place, name)| *name != entry.name && !list[..place].contains(name))
}

#[inline(never)]
pub fn post_add<const INDEXED: bool>(sizes: Sizes, tables: &mut Tables, worker: u32, entry: Entry) -> Answer {
    answered(Graph::<INDEXED>::admitted(sizes, tables, worker).and_then(|(graph, at)| {
        if graph.workers[at + worker::PHASE] != phase::IDLE {
            return Err((3, 0));
        }
        if !arguments_fit(&entry) {
            return Err((5, 0));
        }
        graph.judge_counters()?;
        let own = &mut graph.workers[at..at + WORKER_WORDS];
        own[worker::PHASE] = phase::LOOKING_UP;
        let call = [entry.name, entry.count, entry.class, entry.grower, 0, 0, NONE, NONE, 0];
        own[worker::NAME..worker::NAMES].copy_from_slice(&call);
        let (listed, rest) = own[worker::NAMES..].split_at_mut(entry.count as usize);
        listed.copy_from_slice(&entry.names[..listed.len()]);
        rest.fill(0);
        Ok(answer(kind::POSTED))
    }))
}

#[inline(never)]
pub fn post_finish<const INDEXED: bool>(
    sizes: Sizes,
    tables: &mut Tables,
    worker: u32,
    name: u32,
    outcome: u32,
) -> Answer {
    answered(Graph::<INDEXED>::admitted(sizes, tables, worker).and_then(|(mut graph, at)| {
        if graph.workers[at + worker::PHASE] != phase::IDLE {
            return Err((3, 0));
        }
        let held = graph.workers[at + worker::HELD];
        if held == NONE || graph.job(held)[job::NAME] != name {
            return Err((11, 0));
        }
        graph.judge_counters()?;
        graph.judge_outcome(held, outcome)?;
        graph.clear(at);
        graph.workers[at + worker::PHASE] = phase::MARKING;
        graph.workers[at + worker::NOTE] = u32::from(outcome != GOOD);
        Ok(answer(kind::POSTED))
    }))
}

#[inline(never)]
pub fn step<const INDEXED: bool>(sizes: Sizes, tables: &mut Tables, worker: u32) -> Answer {
    answered(Graph::<INDEXED>::admitted(sizes, tables, worker).and_then(|(mut graph, at)| {
        let own = &graph.workers[at..at + worker::NAMES];
        let more = own[worker::PLACE] < own[worker::COUNT];
        let phase = own[worker::PHASE];
        if phase == phase::IDLE {
            return Err((4, 0));
        }
        graph.judge_counters()?;
        match (phase, more) {
            (phase::LOOKING_UP, true) => graph.look_up(at),
            (phase::LOOKING_UP, false) => graph.enter(at),
            (phase::LINKING, true) => graph.link(at),
            (phase::LINKING, false) => graph.settle(at),
            (phase::MARKING, _) => graph.mark(at),
            _ => graph.notify(at),
        }
    }))
}

#[inline(never)]
pub fn get<const INDEXED: bool>(sizes: Sizes, tables: &mut Tables, worker: u32) -> Answer {
    answered(Graph::<INDEXED>::admitted(sizes, tables, worker).and_then(|(mut graph, at)| {
        if graph.workers[at + worker::PHASE] != phase::IDLE {
            return Err((3, 0));
        }
        if graph.workers[at + worker::HELD] != NONE {
            return Err((10, 0));
        }
        graph.judge_counters()?;
        graph.take(at)
    }))
}
