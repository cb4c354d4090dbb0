//! What the list settles for each call, whatever the words: its answer and the words that it writes; what a worker
//! holds, whether the graph is drained, its board and its minutes.

use std::ops;

use second_implementation::{
    bucket::bucket,
    graph::{judged_list, Sizes},
    history::Item,
    minutes::Minutes,
    refusal,
    sheet::{Entry, MAX_CLASS, MAX_GROWER, MAX_NAMES},
    totals::{self, Record, Totals, TotalsError},
};
use taskgraph::raw::{kind, Answer, DrainedAnswer, Holding, CALL_ADD, CALL_FINISH, CALL_NONE, GOOD};

use crate::{
    event::{worker_of, Call},
    index::{self, Ranked, WrongSlot},
    layout::{self, idle_worker, job, phase, worker, NONE},
    tables::{Tables, ARCS, BUCKETS, JOBS, QUEUE, WORKERS},
};

pub fn of_kind(kind: u32) -> Answer {
    Answer { kind, ..Answer::default() }
}

pub fn refused(number: u32) -> Answer {
    Answer { number, ..of_kind(kind::REFUSED) }
}

/// A table, a place in it, and the word that is written there.
type Write = (usize, usize, u32);

/// A word that is 0 or 1.
#[derive(Clone, Copy, Debug, PartialEq, Eq, PartialOrd, Ord)]
pub enum Flag {
    Outcome,
    Mark,
    Note,
}

/// What the list settles for a call.
pub struct Expected {
    pub answer: Answer,
    pub writes: Vec<Write>,
    /// For number 9, what is wrong with the index, if that is why.
    pub wrong_slot: Option<WrongSlot>,
    /// For number 9, the word that is not 0 or 1, if that is why.
    pub wrong_flag: Option<Flag>,
}

impl Expected {
    fn new(answer: Answer, writes: Vec<Write>) -> Expected {
        Expected { answer, writes, wrong_slot: None, wrong_flag: None }
    }

    /// Turned away with nothing changed.
    fn refused(number: u32) -> Expected {
        Expected::new(refused(number), Vec::new())
    }
}

/// The words, unless number 1 comes first; one of the tables may be cut short.
fn sized(tables: &Tables, sizes: Sizes, short: Option<(usize, usize)>) -> Result<Words<'_>, u32> {
    let stored = [sizes.jobs, sizes.arcs, sizes.bits, sizes.workers];
    let stand = sizes.within_limits()
        && layout::suffice(tables.cut_lens(short), sizes)
        && tables.words(JOBS)[..layout::MADE] == stored;
    if stand {
        Ok(Words { tables, sizes })
    } else {
        Err(refusal::SIZE)
    }
}

/// The worker of a call, and worker 0 for a load, which has none.
pub fn worker_asked(call: &Call) -> u32 {
    worker_of(&call.item).unwrap_or(0)
}

/// The words and the worker's own, unless 1, 2 or 9 for these comes first.
fn admitted<'a>(tables: &'a Tables, sizes: Sizes, call: &Call) -> Result<(Words<'a>, Own<'a>), u32> {
    let words = sized(tables, sizes, call.short)?;
    if worker_asked(call) >= sizes.workers {
        return Err(refusal::WORKER);
    }
    let own = words.worker(worker_asked(call));
    if words.own_words_fit(own) {
        Ok((words, own))
    } else {
        Err(refusal::DAMAGED)
    }
}

/// Whether of the worker's own words the note is wrong and nothing else.
fn note_alone_is_wrong(tables: &Tables, sizes: Sizes, call: &Call) -> bool {
    sized(tables, sizes, call.short).map_or(false, |words| {
        let own = || words.worker(worker_asked(call));
        worker_asked(call) < sizes.workers && words.call_words_fit(own()) && own()[worker::NOTE] > 1
    })
}

/// What the worker of a call holds, whatever the words.
pub fn expected_holding(tables: &Tables, sizes: Sizes, call: &Call) -> Holding {
    let found = admitted(tables, sizes, call)
        .and_then(|found| found.0.judge_counters().map(|()| found).map_err(|_| refusal::DAMAGED));
    let (words, own) = match found {
        Ok(found) => found,
        Err(number) => return Holding { number, ..Holding::default() },
    };
    let (call, adds) = match own[worker::PHASE] {
        phase::IDLE => (CALL_NONE, 0),
        phase::LOOKING_UP | phase::LINKING => (CALL_ADD, own[worker::NAME]),
        _ => (CALL_FINISH, 0),
    };
    let held = match own[worker::HELD] {
        NONE => return Holding { call, adds, ..Holding::default() },
        held => words.job(held),
    };
    match held[job::MARK] {
        mark @ 0..=1 => {
            let (job, name) = (own[worker::HELD], held[job::NAME]);
            Holding { number: 0, holds: 1, job, name, call, adds, spoiled: mark }
        }
        _ => Holding { number: refusal::DAMAGED, ..Holding::default() },
    }
}

/// Whether the graph is drained, whatever the words.
pub fn expected_drained(tables: &Tables, sizes: Sizes, short: Option<(usize, usize)>) -> DrainedAnswer {
    let at_rest = sized(tables, sizes, short).and_then(|words| words.at_rest().map_err(|_| refusal::DAMAGED));
    match at_rest {
        Ok(at_rest) => DrainedAnswer { number: 0, drained: u32::from(at_rest) },
        Err(number) => DrainedAnswer { number, drained: 0 },
    }
}

/// What the list settles for a load, whatever the words: 1, 17, 9 for the jobs made, 18. No other word is read.
pub fn expected_load(tables: &Tables, sizes: Sizes, short: Option<(usize, usize)>, minutes: &[u32]) -> Expected {
    let loaded = sized(tables, sizes, short).and_then(|words| {
        let minutes = Minutes::of(minutes).ok_or(refusal::MINUTES)?;
        match words.made() {
            0 => Ok(minutes),
            made if made > sizes.jobs => Err(refusal::DAMAGED),
            _ => Err(refusal::ENTERED),
        }
    });
    match loaded {
        Err(number) => Expected::refused(number),
        Ok(minutes) => {
            let values = minutes.values().iter().enumerate();
            let writes = values.map(|(class, value)| (JOBS, layout::MINUTES + class, *value)).collect();
            Expected::new(of_kind(kind::LOADED), writes)
        }
    }
}

/// Whether a jobs table is one of a graph of these sizes.
fn is_sized(jobs: &[u32], sizes: Sizes) -> bool {
    sizes.within_limits()
        && jobs.len() >= layout::words_needed(sizes)[JOBS]
        && jobs[..layout::MADE] == [sizes.jobs, sizes.arcs, sizes.bits, sizes.workers]
}

/// The board over the graph, whatever the words: 9 for a counter over R, wrong minutes, and a wrong label or class.
pub fn expected_totals(jobs: &[u32], sizes: Sizes) -> Result<Totals, TotalsError> {
    if !is_sized(jobs, sizes) {
        return Err(TotalsError::Size);
    }
    let (made, minutes) = (jobs[layout::MADE], layout::stored_minutes(jobs));
    if made > sizes.jobs || Minutes::of(minutes).is_none() {
        return Err(TotalsError::Damaged);
    }
    let record = |number: usize| {
        let words = &jobs[layout::job_at(number)..layout::job_at(number + 1)];
        Record { label: words[job::LABEL], class: words[job::CLASS] }
    };
    totals::by_minutes(&(0..made as usize).map(record).collect::<Vec<Record>>(), minutes)
}

/// The minutes of the graph, whatever the words.
pub fn expected_minutes(jobs: &[u32], sizes: Sizes) -> Result<Minutes, u32> {
    if !is_sized(jobs, sizes) {
        return Err(refusal::SIZE);
    }
    Minutes::of(layout::stored_minutes(jobs)).ok_or(refusal::DAMAGED)
}

/// What the list settles for a single call of a worker, whatever the words.
///
/// # Panics
/// For a call run whole, which is made of single ones, and for a load.
pub fn expected(tables: &Tables, sizes: Sizes, call: &Call) -> Expected {
    let (words, own) = match admitted(tables, sizes, call) {
        Ok(found) => found,
        Err(number) => {
            let wrong_flag = note_alone_is_wrong(tables, sizes, call).then_some(Flag::Note);
            return Expected { wrong_flag, ..Expected::refused(number) };
        }
    };
    let idle = own[worker::PHASE] == phase::IDLE;
    let held = own[worker::HELD];
    let before_the_words_read = match &call.item {
        Item::Step { .. } => idle.then_some(refusal::IDLE),
        _ if !idle => Some(refusal::HALF_DONE),
        Item::PostAdd { entry, .. } => judged_list(entry).is_err().then_some(refusal::ARGUMENTS),
        Item::PostFinish { name, .. } => {
            let holds = held != NONE && words.job(held)[job::NAME] == *name;
            (!holds).then_some(refusal::NOT_HELD)
        }
        Item::Get { .. } => (held != NONE).then_some(refusal::HOLDING),
        Item::Add { .. } | Item::Finish { .. } | Item::AddSheet { .. } | Item::Load { .. } => {
            panic!("{:?} is no single call of a worker", call.item)
        }
    };
    if let Some(number) = before_the_words_read {
        return Expected::refused(number);
    }
    let served = words.judge_counters().and_then(|()| match &call.item {
        Item::Step { .. } => words.step(own),
        Item::Get { .. } => words.get(own),
        Item::PostFinish { outcome, .. } => words.post_finish(own, *outcome),
        Item::PostAdd { entry, .. } => Ok(Expected::new(of_kind(kind::POSTED), own.all(posted_add(held, entry)))),
        _ => unreachable!("other items are no single call of a worker"),
    });
    served.unwrap_or_else(|harm| match harm {
        Harm::Other => Expected::refused(refusal::DAMAGED),
        Harm::Slot(wrong) => Expected { wrong_slot: Some(wrong), ..Expected::refused(refusal::DAMAGED) },
        Harm::Flag(wrong) => Expected { wrong_flag: Some(wrong), ..Expected::refused(refusal::DAMAGED) },
    })
}

/// The words of a worker that has posted an add.
fn posted_add(held: u32, entry: &Entry) -> [u32; layout::WORKER_WORDS] {
    let mut own = idle_worker(held);
    let count = entry.prerequisites.count;
    own[worker::PHASE] = phase::LOOKING_UP;
    own[worker::NAME] = entry.name;
    own[worker::COUNT] = count as u32;
    own[worker::CLASS] = entry.class;
    own[worker::GROWER] = entry.grower;
    own[worker::NAMES..worker::NAMES + count].copy_from_slice(&entry.prerequisites.names[..count]);
    own
}

/// The words of a worker that has posted a finish with this outcome.
fn posted_finish(held: u32, outcome: u32) -> [u32; layout::WORKER_WORDS] {
    let mut own = idle_worker(held);
    own[worker::PHASE] = phase::MARKING;
    own[worker::NOTE] = u32::from(outcome != GOOD);
    own
}

/// A word that a call reads lies off its range, or does not go with another.
enum Harm {
    Other,
    /// One of the index.
    Slot(WrongSlot),
    /// A word that is to be 0 or 1.
    Flag(Flag),
}

impl From<WrongSlot> for Harm {
    fn from(wrong: WrongSlot) -> Harm {
        Harm::Slot(wrong)
    }
}

fn harm_unless(right: bool) -> Result<(), Harm> {
    if right {
        Ok(())
    } else {
        Err(Harm::Other)
    }
}

/// A word that is to be 0 or 1, as what it says.
fn flag(word: u32, which: Flag) -> Result<bool, Harm> {
    match word {
        0 => Ok(false),
        1 => Ok(true),
        _ => Err(Harm::Flag(which)),
    }
}

/// The words of a worker, and where they start.
#[derive(Clone, Copy)]
struct Own<'a> {
    at: usize,
    words: &'a [u32],
}

impl ops::Index<usize> for Own<'_> {
    type Output = u32;

    fn index(&self, field: usize) -> &u32 {
        &self.words[field]
    }
}

impl Own<'_> {
    fn write(&self, field: usize, word: u32) -> Write {
        (WORKERS, self.at + field, word)
    }

    fn all(&self, words: [u32; layout::WORKER_WORDS]) -> Vec<Write> {
        words.into_iter().enumerate().map(|(field, word)| self.write(field, word)).collect()
    }

    /// The words of the call are put back, and the worker holds this.
    fn idle(&self, held: u32) -> Vec<Write> {
        self.all(idle_worker(held))
    }

    /// The add is refused.
    fn refused(&self, answer: Answer) -> Expected {
        Expected::new(answer, self.idle(self[worker::HELD]))
    }
}

/// The words of tables that are long enough, with the sizes laid out.
struct Words<'a> {
    tables: &'a Tables,
    sizes: Sizes,
}

impl<'a> Words<'a> {
    fn worker(&self, number: u32) -> Own<'a> {
        let at = layout::worker_at(number as usize);
        Own { at, words: &self.tables.words(WORKERS)[at..at + layout::WORKER_WORDS] }
    }

    fn job(&self, number: u32) -> &'a [u32] {
        let at = layout::job_at(number as usize);
        &self.tables.words(JOBS)[at..at + layout::JOB_WORDS]
    }

    fn job_in_use(&self, place: u32) -> bool {
        place < self.made() && place < self.sizes.jobs
    }

    fn arc_in_use(&self, place: u32) -> bool {
        place < self.reserved() && place < self.sizes.arcs
    }

    /// None, or in use.
    fn arc_fits(&self, place: u32) -> bool {
        place == NONE || self.arc_in_use(place)
    }

    /// A worker's own words.
    fn own_words_fit(&self, own: Own) -> bool {
        self.call_words_fit(own) && own[worker::NOTE] <= 1
    }

    /// A worker's own words but the note: places are none or in use, the others in their ranges.
    fn call_words_fit(&self, own: Own) -> bool {
        let count = own[worker::COUNT];
        own[worker::PHASE] <= phase::NOTIFYING
            && [own[worker::HELD], own[worker::JOB]].iter().all(|place| *place == NONE || self.job_in_use(*place))
            && self.arc_fits(own[worker::ARC])
            && count as usize <= MAX_NAMES
            && own[worker::CLASS] <= MAX_CLASS
            && own[worker::GROWER] <= MAX_GROWER
            && own[worker::TALLY] <= count
            && own[worker::PLACE] <= count
    }

    fn made(&self) -> u32 {
        self.tables.words(JOBS)[layout::MADE]
    }

    fn reserved(&self) -> u32 {
        self.tables.words(ARCS)[layout::RESERVED]
    }

    /// Every call with a worker reads how many jobs were made and arcs reserved: at most R and A.
    fn judge_counters(&self) -> Result<(), Harm> {
        harm_unless(self.made() <= self.sizes.jobs && self.reserved() <= self.sizes.arcs)
    }

    /// The queue's counters, taken and put: in order, and at most R.
    fn queue_counters(&self) -> Result<(u32, u32), Harm> {
        let (taken, put) = (self.tables.words(QUEUE)[layout::TAKEN], self.tables.words(QUEUE)[layout::PUT]);
        harm_unless(taken <= put && put <= self.sizes.jobs)?;
        Ok((taken, put))
    }

    /// The queue is empty, and every worker is idle and holds nothing.
    fn at_rest(&self) -> Result<bool, Harm> {
        self.judge_counters()?;
        let (taken, put) = self.queue_counters()?;
        let mut at_rest = taken == put;
        for number in 0..self.sizes.workers {
            let own = self.worker(number);
            harm_unless(self.own_words_fit(own))?;
            at_rest &= own[worker::PHASE] == phase::IDLE && own[worker::HELD] == NONE;
        }
        Ok(at_rest)
    }

    /// The place in a slot of the index: below `put`, its position the slot, in its cell a job that was made, of a
    /// class within its limit.
    fn slot(&self, slot: usize, put: u32) -> Result<Ranked, WrongSlot> {
        let queue = self.tables.words(QUEUE);
        let place = queue[layout::slot_at(slot)];
        if place >= put {
            return Err(WrongSlot::NotPut);
        }
        if queue[layout::position_at(place as usize)] != slot as u32 {
            return Err(WrongSlot::Elsewhere);
        }
        let number = queue[layout::cell_at(place as usize)];
        if !self.job_in_use(number) {
            return Err(WrongSlot::NoJobMade);
        }
        match self.job(number)[job::CLASS] {
            class if class > MAX_CLASS => Err(WrongSlot::NoClass),
            class => Ok(Ranked::new(place, class)),
        }
    }

    /// One more job is put in the queue, which must not pass its end.
    fn queued(&self, number: u32) -> Result<Vec<Write>, Harm> {
        let (taken, put) = self.queue_counters()?;
        let class = self.job(number)[job::CLASS];
        harm_unless(put < self.sizes.jobs && class <= MAX_CLASS)?;
        let moves = index::enter((put - taken) as usize, Ranked::new(put, class), |slot| self.slot(slot, put))?;
        let mut writes = moved(moves);
        writes.extend([(QUEUE, layout::cell_at(put as usize), number), (QUEUE, layout::PUT, put + 1)]);
        Ok(writes)
    }

    /// The job of a name, if there is one.
    fn find(&self, name: u32) -> Result<Option<u32>, Harm> {
        let mut place = self.tables.words(BUCKETS)[bucket(name, self.sizes.bits) as usize];
        for _ in 0..self.made() {
            if place == NONE {
                return Ok(None);
            }
            harm_unless(self.job_in_use(place))?;
            if self.job(place)[job::NAME] == name {
                return Ok(Some(place));
            }
            place = self.job(place)[job::NEXT];
        }
        harm_unless(place == NONE)?;
        Ok(None)
    }

    /// What a get by an idle worker without a job does.
    fn get(&self, own: Own) -> Result<Expected, Harm> {
        let (taken, put) = self.queue_counters()?;
        if taken == put {
            return Ok(Expected::new(of_kind(kind::NONE_READY), Vec::new()));
        }
        let filled = (put - taken) as usize;
        let moves = index::take(filled, |slot| self.slot(slot, put))?;
        let first = self.tables.words(QUEUE)[layout::slot_at(0)] as usize;
        let number = self.tables.words(QUEUE)[layout::cell_at(first)];
        harm_unless(self.job(number)[job::LABEL] == 0)?;
        let spoiled = flag(self.job(number)[job::MARK], Flag::Mark)?;
        let mut writes = moved(moves);
        let emptied = [layout::slot_at(filled - 1), layout::cell_at(first), layout::position_at(first)];
        writes.extend(emptied.map(|place| (QUEUE, place, NONE)));
        writes.push((QUEUE, layout::TAKEN, taken + 1));
        writes.extend([field_of(number, job::LABEL, 1), own.write(worker::HELD, number)]);
        let (name, spoiled) = (self.job(number)[job::NAME], u32::from(spoiled));
        Ok(Expected::new(Answer { job: number, name, spoiled, ..of_kind(kind::HANDED_OUT) }, writes))
    }

    /// What a post of a finish by an idle worker that holds the job of its name does. The mark is read whatever the
    /// outcome.
    fn post_finish(&self, own: Own, outcome: u32) -> Result<Expected, Harm> {
        let held = own[worker::HELD];
        let spoiled = flag(self.job(held)[job::MARK], Flag::Mark)?;
        if spoiled && outcome == GOOD {
            return Ok(Expected::refused(refusal::GOOD_FOR_SPOILED));
        }
        Ok(Expected::new(of_kind(kind::POSTED), own.all(posted_finish(held, outcome))))
    }

    /// What a step of a worker half done does.
    fn step(&self, own: Own) -> Result<Expected, Harm> {
        let place = own[worker::PLACE];
        let more = place < own[worker::COUNT];
        let listed = || self.find(own[worker::NAMES + place as usize]);
        match own[worker::PHASE] {
            phase::LOOKING_UP if more => Ok(match listed()? {
                Some(_) => Expected::new(of_kind(kind::GOING_ON), vec![own.write(worker::PLACE, place + 1)]),
                None => own.refused(Answer { place, ..refused(refusal::UNKNOWN_NAME) }),
            }),
            phase::LOOKING_UP => self.enter(own),
            phase::LINKING if more => self.link(own, listed()?.ok_or(Harm::Other)?),
            phase::LINKING => self.settle(own),
            phase::MARKING => self.mark(own),
            _ => self.notify(own),
        }
    }

    fn enter(&self, own: Own) -> Result<Expected, Harm> {
        let (made, reserved) = (self.made(), self.reserved());
        let (name, count) = (own[worker::NAME], own[worker::COUNT]);
        if self.find(name)?.is_some() {
            return Ok(own.refused(refused(refusal::NAME_PRESENT)));
        }
        if made == self.sizes.jobs || self.sizes.arcs - reserved < count {
            return Ok(own.refused(refused(refusal::FULL)));
        }
        let bucket = bucket(name, self.sizes.bits) as usize;
        let head = self.tables.words(BUCKETS)[bucket];
        let record = [name, 0, count, own[worker::CLASS], own[worker::GROWER], NONE, NONE, head, 0, 0];
        let mut writes: Vec<Write> =
            record.into_iter().enumerate().map(|(field, word)| field_of(made, field, word)).collect();
        writes.extend([
            (BUCKETS, bucket, made),
            (JOBS, layout::MADE, made + 1),
            (ARCS, layout::RESERVED, reserved + count),
            own.write(worker::PHASE, phase::LINKING),
            own.write(worker::PLACE, 0),
            own.write(worker::JOB, made),
            own.write(worker::ARC, if count == 0 { NONE } else { reserved }),
        ]);
        Ok(Expected::new(of_kind(kind::GOING_ON), writes))
    }

    fn link(&self, own: Own, prerequisite: u32) -> Result<Expected, Harm> {
        let words = self.job(prerequisite);
        harm_unless(words[job::LABEL] <= 2)?;
        let mut writes = vec![own.write(worker::PLACE, own[worker::PLACE] + 1)];
        if words[job::LABEL] == 2 {
            writes.push(own.write(worker::TALLY, own[worker::TALLY] + 1));
            if flag(words[job::OUTCOME], Flag::Outcome)? {
                writes.push(own.write(worker::NOTE, 1));
            }
        } else {
            let dependent = own[worker::JOB];
            let arc = u64::from(own[worker::ARC]) + u64::from(own[worker::PLACE]);
            harm_unless(dependent != NONE && arc < u64::from(self.reserved()))?;
            let (arc, last) = (arc as u32, words[job::LAST]);
            harm_unless(self.arc_fits(last))?;
            let at = layout::arc_at(arc as usize);
            writes.extend([(ARCS, at, dependent), (ARCS, at + layout::ARC_NEXT, NONE)]);
            writes.push(match last {
                NONE => field_of(prerequisite, job::FIRST, arc),
                last => (ARCS, layout::arc_at(last as usize) + layout::ARC_NEXT, arc),
            });
            writes.push(field_of(prerequisite, job::LAST, arc));
        }
        Ok(Expected::new(of_kind(kind::GOING_ON), writes))
    }

    fn settle(&self, own: Own) -> Result<Expected, Harm> {
        let (number, tally) = (own[worker::JOB], own[worker::TALLY]);
        harm_unless(number != NONE)?;
        let count = self.job(number)[job::COUNT];
        harm_unless(count as usize <= MAX_NAMES && tally <= count)?;
        let mut writes = own.idle(own[worker::HELD]);
        writes.push(field_of(number, job::COUNT, count - tally));
        writes.extend(spoils(own, number));
        if count == tally && (tally > 0 || own[worker::COUNT] == 0) {
            writes.extend(self.queued(number)?);
        }
        Ok(Expected::new(of_kind(kind::ENDED), writes))
    }

    fn mark(&self, own: Own) -> Result<Expected, Harm> {
        let held = own[worker::HELD];
        harm_unless(held != NONE && self.job(held)[job::LABEL] == 1)?;
        let mut writes = vec![field_of(held, job::LABEL, 2), field_of(held, job::OUTCOME, own[worker::NOTE])];
        writes.extend([own.write(worker::HELD, NONE), own.write(worker::PHASE, phase::NOTIFYING)]);
        self.goes_on(own, NONE, self.job(held)[job::FIRST], writes)
    }

    fn notify(&self, own: Own) -> Result<Expected, Harm> {
        let arc = own[worker::ARC];
        harm_unless(arc != NONE)?;
        let at = layout::arc_at(arc as usize);
        let (dependent, next) = (self.tables.words(ARCS)[at], self.tables.words(ARCS)[at + layout::ARC_NEXT]);
        harm_unless(self.job_in_use(dependent))?;
        let count = self.job(dependent)[job::COUNT];
        harm_unless(count > 0 && count as usize <= MAX_NAMES)?;
        let mut writes = vec![field_of(dependent, job::COUNT, count - 1)];
        writes.extend(spoils(own, dependent));
        if count == 1 {
            writes.extend(self.queued(dependent)?);
        }
        self.goes_on(own, own[worker::HELD], next, writes)
    }

    /// A finish goes on with an arc, or ends where there is none and leaves the worker's hold so.
    fn goes_on(&self, own: Own, held: u32, arc: u32, mut writes: Vec<Write>) -> Result<Expected, Harm> {
        harm_unless(self.arc_fits(arc))?;
        if arc == NONE {
            writes.extend(own.idle(held));
            return Ok(Expected::new(of_kind(kind::ENDED), writes));
        }
        writes.push(own.write(worker::ARC, arc));
        Ok(Expected::new(of_kind(kind::GOING_ON), writes))
    }
}

/// The mark of a job where the worker's note says that it is spoiled; its old mark is not read.
fn spoils(own: Own, number: u32) -> Option<Write> {
    (own[worker::NOTE] == 1).then(|| field_of(number, job::MARK, 1))
}

/// A word of a job.
fn field_of(number: u32, field: usize, word: u32) -> Write {
    (JOBS, layout::job_at(number as usize) + field, word)
}

/// The words of moves in the index: the slots, and the positions of the places that come to them.
fn moved(moves: index::Moves) -> Vec<Write> {
    let words = moves.into_iter().map(|(slot, place)| {
        [(QUEUE, layout::slot_at(slot), place), (QUEUE, layout::position_at(place as usize), slot as u32)]
    });
    words.flatten().collect()
}
