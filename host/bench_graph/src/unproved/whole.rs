//! Calls run whole, and sheets. An add reads all that its steps would read and then stores; where it meets damage,
//! nothing is stored yet, and it runs by steps, which leave what they must. A finish stores as it goes.

use compare_graph::layout::{job, phase, worker, NONE, WORKER_WORDS};
use taskgraph::raw::{kind, Answer, Entry, SheetAdded, Sizes, Tables, ENTRY_WORDS, GOOD, MAX_ENTRIES};

use super::{
    answer, answered, index::Seat, inlined::judged_list, post_add, step, Graph, Outcome, DAMAGED, EXECUTING, FINISHED,
    MAX_NAMES, SET, UNEXECUTED,
};

/// What an add found, if it met no damage.
enum Found {
    /// It is refused by this number and place.
    Refused(u32, u32),
    /// It enters: the jobs of its listed names, how many of these are finished, whether one of them failed, and its seat
    /// where all are.
    Enters { prerequisites: [u32; MAX_NAMES as usize], tally: u32, note: u32, seat: Option<Seat> },
}

/// A worker's phase, if there is such a worker.
#[inline(always)]
fn phase_of(tables: &Tables, worker: u32) -> Option<u32> {
    tables.workers.get(worker as usize * WORKER_WORDS + worker::PHASE).copied()
}

/// An answer, or that damage stopped the call half done.
#[inline(always)]
fn unless_stopped(answer: Answer, before: Option<u32>, after: Option<u32>) -> Answer {
    let half_done = before == Some(phase::IDLE) && after != Some(phase::IDLE);
    if answer.kind == kind::REFUSED && answer.number == DAMAGED.0 && half_done {
        return Answer { kind: kind::STOPPED, ..answer };
    }
    answer
}

#[inline(never)]
pub fn add<const INDEXED: bool>(sizes: Sizes, tables: &mut Tables, worker: u32, entry: Entry) -> Answer {
    let before = phase_of(tables, worker);
    let answer = answered(
        Graph::<INDEXED>::admitted(sizes, tables, worker).and_then(|(mut graph, at)| graph.add(at, &entry, &mut false)),
    );
    unless_stopped(answer, before, phase_of(tables, worker))
}

#[inline(never)]
pub fn finish<const INDEXED: bool>(sizes: Sizes, tables: &mut Tables, worker: u32, name: u32, outcome: u32) -> Answer {
    let before = phase_of(tables, worker);
    let answer = answered(Graph::<INDEXED>::admitted(sizes, tables, worker).and_then(|(mut graph, at)| {
        graph.judge_idle(at)?;
        graph.finish(at, name, outcome)
    }));
    unless_stopped(answer, before, phase_of(tables, worker))
}

#[inline(never)]
pub fn add_sheet<const INDEXED: bool>(sizes: Sizes, tables: &mut Tables, worker: u32, rows: &[u32]) -> SheetAdded {
    let mut added = SheetAdded::default();
    added.number = match add_rows::<INDEXED>(sizes, tables, worker, rows, &mut added) {
        Ok(()) => 0,
        Err((number, _)) => number,
    };
    added
}

#[inline(always)]
fn add_rows<const INDEXED: bool>(
    sizes: Sizes,
    tables: &mut Tables,
    worker: u32,
    rows: &[u32],
    added: &mut SheetAdded,
) -> Outcome<()> {
    let rows = rows.chunks_exact(ENTRY_WORDS);
    if !rows.remainder().is_empty() {
        return Err((1, 0));
    }
    let (mut graph, at) = Graph::<INDEXED>::admitted(sizes, tables, worker)?;
    graph.judge_idle(at)?;
    if rows.len() > MAX_ENTRIES {
        return Err((16, 0));
    }
    let mut cleared = false;
    for (place, row) in rows.enumerate() {
        if let Err((number, listed)) = graph.add(at, &entry_of(row), &mut cleared) {
            added.numbers[place] = number;
            added.places[place] = listed;
            if number == DAMAGED.0 && graph.judge_idle(at).is_err() {
                added.stopped = place as u32 + 1;
            }
        }
    }
    Ok(())
}

#[inline(always)]
fn entry_of(row: &[u32]) -> Entry {
    let mut names = [0; MAX_NAMES as usize];
    names.copy_from_slice(&row[4..ENTRY_WORDS]);
    Entry { name: row[0], count: row[1], class: row[2], grower: row[3], names }
}

impl<const INDEXED: bool> Graph<'_, INDEXED> {
    #[inline(always)]
    fn judge_idle(&self, at: usize) -> Outcome<()> {
        if self.workers[at + worker::PHASE] == phase::IDLE {
            Ok(())
        } else {
            Err((3, 0))
        }
    }

    /// An add by a worker whose own words fit. The first of several that is posted clears the words of its call, which
    /// damage may have filled; the others find them cleared.
    #[inline(always)]
    fn add(&mut self, at: usize, entry: &Entry, cleared: &mut bool) -> Outcome<Answer> {
        self.judge_idle(at)?;
        let list = judged_list(entry)?;
        self.judge_counters()?;
        let found = match self.look(entry, list) {
            Ok(found) => found,
            Err(_) => return self.add_by_steps(at, entry),
        };
        if !*cleared {
            self.clear(at);
            *cleared = true;
        }
        match found {
            Found::Refused(number, place) => Err((number, place)),
            Found::Enters { prerequisites, tally, note, seat } => {
                self.store(entry, &prerequisites[..list.len()], tally, note, seat);
                Ok(answer(kind::ENDED))
            }
        }
    }

    /// All that the add reads. It looks up each name once: entering changes no walk that found its name. A cell with the
    /// job that is to enter is left to the steps.
    #[inline(always)]
    fn look(&self, entry: &Entry, list: &[u32]) -> Outcome<Found> {
        let mut prerequisites = [0; MAX_NAMES as usize];
        for (place, name) in list.iter().enumerate() {
            prerequisites[place] = self.search(*name)?;
            if prerequisites[place] == NONE {
                return Ok(Found::Refused(6, place as u32));
            }
        }
        if self.search(entry.name)? != NONE {
            return Ok(Found::Refused(7, 0));
        }
        if self.made() == self.sizes.jobs || self.sizes.arcs - self.reserved() < entry.count {
            return Ok(Found::Refused(8, 0));
        }
        let (mut tally, mut note) = (0, 0);
        for prerequisite in &prerequisites[..list.len()] {
            if let Some(outcome) = self.ended(*prerequisite)? {
                tally += 1;
                note |= outcome;
            }
        }
        let seat = if tally == entry.count { Some(self.seat_for(entry.class)?) } else { None };
        Ok(Found::Enters { prerequisites, tally, note, seat })
    }

    /// The outcome of a finished prerequisite. An arc that was not in use before the add is left to the steps.
    #[inline(always)]
    fn ended(&self, prerequisite: u32) -> Outcome<Option<u32>> {
        let words = self.job_read(prerequisite);
        match words[job::LABEL] {
            FINISHED if words[job::OUTCOME] <= SET => Ok(Some(words[job::OUTCOME])),
            label if label < FINISHED && self.arc_is_none_or_used(words[job::LAST]) => Ok(None),
            _ => Err(DAMAGED),
        }
    }

    /// All that the add stores but the worker's words.
    #[inline(always)]
    fn store(&mut self, entry: &Entry, prerequisites: &[u32], tally: u32, note: u32, seat: Option<Seat>) {
        let (made, reserved, bucket) = (self.made(), self.reserved(), self.bucket(entry.name));
        let Entry { name, count, class, grower, .. } = *entry;
        let head = self.buckets[bucket];
        let record = [name, UNEXECUTED, count - tally, class, grower, NONE, NONE, head, 0, note];
        self.job_words(made).copy_from_slice(&record);
        self.buckets[bucket] = made;
        self.jobs[4] = made + 1;
        self.arcs[0] = reserved + count;
        for (place, prerequisite) in prerequisites.iter().enumerate() {
            let words = self.job_read(*prerequisite);
            if words[job::LABEL] != FINISHED {
                let last = words[job::LAST];
                self.append_arc(*prerequisite, last, reserved + place as u32, made);
            }
        }
        if let Some(seat) = seat {
            self.enqueue(seat, made);
        }
    }

    #[cold]
    fn add_by_steps(&mut self, at: usize, entry: &Entry) -> Outcome<Answer> {
        let (sizes, worker) = (self.sizes, (at / WORKER_WORDS) as u32);
        let Graph { jobs, arcs, buckets, queue, workers, .. } = self;
        let mut tables = Tables { jobs, arcs, buckets, queue, workers };
        let mut answer = post_add::<INDEXED>(sizes, &mut tables, worker, *entry);
        while answer.kind == kind::POSTED || answer.kind == kind::GOING_ON {
            answer = step::<INDEXED>(sizes, &mut tables, worker);
        }
        if answer.kind == kind::REFUSED {
            return Err((answer.number, answer.place));
        }
        Ok(answer)
    }

    /// A finish by an idle worker whose own words fit.
    #[inline(always)]
    fn finish(&mut self, at: usize, name: u32, outcome: u32) -> Outcome<Answer> {
        let held = self.workers[at + worker::HELD];
        if held == NONE || self.job_read(held)[job::NAME] != name {
            return Err((11, 0));
        }
        self.judge_counters()?;
        self.judge_outcome(held, outcome)?;
        self.clear(at);
        let note = u32::from(outcome != GOOD);
        let first = self.job_read(held)[job::FIRST];
        if self.job_read(held)[job::LABEL] != EXECUTING || !self.arc_is_none_or_used(first) {
            self.workers[at + worker::PHASE] = phase::MARKING;
            self.workers[at + worker::NOTE] = note;
            return Err(DAMAGED);
        }
        self.job_words(held)[job::LABEL] = FINISHED;
        self.job_words(held)[job::OUTCOME] = note;
        self.workers[at + worker::HELD] = NONE;
        self.tell_dependents(at, first, note)
    }

    /// A step for each arc, and no more than there are arcs; what is left is left to the worker's words.
    #[inline(always)]
    fn tell_dependents(&mut self, at: usize, first: u32, note: u32) -> Outcome<Answer> {
        let mut arc = first;
        for _ in 0..self.sizes.arcs {
            if arc == NONE {
                return Ok(answer(kind::ENDED));
            }
            match self.tell(arc, note) {
                Ok(next) => arc = next,
                Err(damaged) => {
                    self.leave_half_done(at, arc, note);
                    return Err(damaged);
                }
            }
        }
        if arc == NONE {
            return Ok(answer(kind::ENDED));
        }
        self.leave_half_done(at, arc, note);
        Ok(answer(kind::GOING_ON))
    }

    /// Lowers the count of an arc's dependent, marks it where the finish is failed, and gives the next arc.
    #[inline(always)]
    fn tell(&mut self, arc: u32, note: u32) -> Outcome<u32> {
        let (dependent, next) = (self.arc_words(arc)[0], self.arc_words(arc)[1]);
        if dependent >= self.made() || !self.arc_is_none_or_used(next) {
            return Err(DAMAGED);
        }
        let count = self.job_read(dependent)[job::COUNT];
        if count == 0 || count > MAX_NAMES {
            return Err(DAMAGED);
        }
        if count == 1 {
            let seat = self.seat_for(self.job_read(dependent)[job::CLASS])?;
            self.enqueue(seat, dependent);
        }
        self.job_words(dependent)[job::COUNT] = count - 1;
        self.spoil(dependent, note);
        Ok(next)
    }

    #[cold]
    fn leave_half_done(&mut self, at: usize, arc: u32, note: u32) {
        self.workers[at + worker::PHASE] = phase::NOTIFYING;
        self.workers[at + worker::ARC] = arc;
        self.workers[at + worker::NOTE] = note;
    }
}
