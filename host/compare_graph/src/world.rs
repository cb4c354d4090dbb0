//! The library and the second implementation side by side over one history: after every event the answers agree
//! and the tables stand for the same graph, and whenever no call is half done the plain book agrees.

use std::fmt;

use compare_sheets::case::differ;
use second_implementation::{
    book::{Book, Ending},
    graph::{self, Answer, Graph, HalfDone, Held, Holding, Outcome, Refusal, Reply, SheetAnswer, Sizes},
    history::{Entries, History, Item, Told},
    minutes::Minutes,
    refusal,
    sheet::Entry,
    totals::Label,
};
use taskgraph::raw as proved;

use crate::{
    event::{is_whole, rows_of, worker_of, Call, Event},
    expected_words,
    hand_outs::HandOuts,
    index::Index,
    layout,
    tables::{Setup, Tables, JOBS},
    view, whole,
};

/// Graphs of more jobs than this have some checks only every so many items.
const SMALL: usize = 64;

const FINISHED: u32 = 2;

#[derive(Clone)]
pub struct World {
    tables: Tables,
    /// The words past each table's need, as they were when it was laid out.
    tails: [Vec<u32>; 5],
    graph: Graph,
    index: Index,
    history: History,
    entries: Entries,
    hand_outs: HandOuts,
    book: Book,
    /// How the calls that the book was fed ended in it.
    endings: Vec<Ending>,
    items: usize,
}

/// The sizes in the shape of the C interface.
pub fn to_library(sizes: Sizes) -> proved::Sizes {
    let Sizes { jobs, arcs, bits, workers } = sizes;
    proved::Sizes { jobs, arcs, bits, workers }
}

pub fn entry_to_library(entry: &Entry) -> proved::Entry {
    proved::Entry {
        name: entry.name,
        count: entry.prerequisites.count as u32,
        class: entry.class,
        grower: entry.grower,
        names: entry.prerequisites.names,
    }
}

/// An answer in the shape of the C interface.
pub fn answer_to_library(answer: &Answer) -> proved::Answer {
    use proved::kind;
    let of_kind = |kind: u32| proved::Answer { kind, ..proved::Answer::default() };
    match *answer {
        Err(Refusal { number, place }) => proved::Answer { number, place: place as u32, ..of_kind(kind::REFUSED) },
        Ok(Reply::Loaded) => of_kind(kind::LOADED),
        Ok(Reply::Posted) => of_kind(kind::POSTED),
        Ok(Reply::GoingOn) => of_kind(kind::GOING_ON),
        Ok(Reply::Ended) => of_kind(kind::ENDED),
        Ok(Reply::NoneReady) => of_kind(kind::NONE_READY),
        Ok(Reply::HandedOut { job, name, spoiled }) => {
            proved::Answer { job: job as u32, name, spoiled: u32::from(spoiled), ..of_kind(kind::HANDED_OUT) }
        }
    }
}

/// What the library tells of an item.
#[derive(Clone, PartialEq, Eq)]
pub enum LibraryTold {
    One(proved::Answer),
    Each(Box<proved::SheetAdded>),
}

impl fmt::Debug for LibraryTold {
    fn fmt(&self, f: &mut fmt::Formatter<'_>) -> fmt::Result {
        match self {
            LibraryTold::One(answer) => answer.fmt(f),
            LibraryTold::Each(added) => {
                // Most are 0, and the last ones say nothing.
                let pairs: Vec<_> = added.numbers.iter().zip(&added.places).collect();
                let said = pairs.iter().rposition(|pair| *pair != (&0, &0)).map_or(0, |last| last + 1);
                write!(f, "number {}, stopped {}, ", added.number, added.stopped)?;
                write!(f, "of each entry number and place {:?} and 0", &pairs[..said])
            }
        }
    }
}

impl LibraryTold {
    fn of_sheet(answers: &SheetAnswer) -> LibraryTold {
        let mut added = proved::SheetAdded::default();
        match answers {
            Err(refusal) => added.number = refusal.number,
            Ok(answers) => {
                let answers = answers.iter().map(answer_to_library);
                for (entry, answer) in answers.enumerate().take(proved::MAX_ENTRIES) {
                    added.numbers[entry] = answer.number;
                    added.places[entry] = answer.place;
                }
            }
        }
        LibraryTold::Each(Box::new(added))
    }

    pub fn of(told: &Told) -> LibraryTold {
        match told {
            Told::One(answer) => LibraryTold::One(answer_to_library(answer)),
            Told::Each(answers) => LibraryTold::of_sheet(answers),
        }
    }
}

/// What a worker holds, in the shape of the C interface.
pub fn holding_to_library(holding: Result<Holding, Refusal>) -> proved::Holding {
    use proved::{Holding as Told, CALL_ADD, CALL_FINISH, CALL_NONE};
    let Holding { held, call } = match holding {
        Err(Refusal { number, .. }) => return Told { number, ..Told::default() },
        Ok(holding) => holding,
    };
    let (call, adds) = match call {
        HalfDone::Nothing => (CALL_NONE, 0),
        HalfDone::Add { name } => (CALL_ADD, name),
        HalfDone::Finish => (CALL_FINISH, 0),
    };
    match held {
        None => Told { call, adds, ..Told::default() },
        Some(Held { job, name, spoiled }) => {
            Told { number: 0, holds: 1, job: job as u32, name, call, adds, spoiled: u32::from(spoiled) }
        }
    }
}

/// Whether the graph is drained, in the shape of the C interface.
pub fn drained_to_library(drained: Result<bool, Refusal>) -> proved::DrainedAnswer {
    match drained {
        Err(Refusal { number, .. }) => proved::DrainedAnswer { number, drained: 0 },
        Ok(drained) => proved::DrainedAnswer { number: 0, drained: u32::from(drained) },
    }
}

/// The minutes of a graph, in the shape of the C interface.
pub fn minutes_to_library(minutes: Result<Minutes, u32>) -> proved::GraphMinutes {
    match minutes {
        Err(number) => proved::GraphMinutes { number, ..proved::GraphMinutes::default() },
        Ok(minutes) => proved::GraphMinutes { number: 0, minutes: *minutes.values() },
    }
}

/// The library's answer to an item.
pub fn call_library(sizes: Sizes, tables: &mut proved::Tables, item: &Item) -> LibraryTold {
    let sizes = to_library(sizes);
    LibraryTold::One(match item {
        Item::PostAdd { worker, entry } => proved::post_add(sizes, tables, *worker, entry_to_library(entry)),
        Item::PostFinish { worker, name, outcome } => proved::post_finish(sizes, tables, *worker, *name, *outcome),
        Item::Step { worker } => proved::step(sizes, tables, *worker),
        Item::Get { worker } => proved::get(sizes, tables, *worker),
        Item::Add { worker, entry } => proved::add(sizes, tables, *worker, entry_to_library(entry)),
        Item::Finish { worker, name, outcome } => proved::finish(sizes, tables, *worker, *name, *outcome),
        Item::AddSheet { worker, entries, stray } => {
            let added = proved::add_sheet(sizes, tables, *worker, &rows_of(entries, *stray));
            return LibraryTold::Each(Box::new(added));
        }
        // In one piece of just this size, so that a memory checker sees its ends.
        Item::Load { minutes } => proved::load_minutes(sizes, tables, &minutes.clone().into_boxed_slice()),
    })
}

/// The second implementation's answer to an item.
pub fn call_second(graph: &mut Graph, sizes: Sizes, item: &Item) -> Told {
    Told::One(match item {
        Item::PostAdd { worker, entry } => graph.post_add(sizes, *worker, entry),
        Item::PostFinish { worker, name, outcome } => graph.post_finish(sizes, *worker, *name, Outcome::of(*outcome)),
        Item::Step { worker } => graph.step(sizes, *worker),
        Item::Get { worker } => graph.get(sizes, *worker),
        Item::Add { worker, entry } => graph.add(sizes, *worker, entry),
        Item::Finish { worker, name, outcome } => graph.finish(sizes, *worker, *name, Outcome::of(*outcome)),
        Item::AddSheet { worker, entries, stray } => {
            return Told::Each(graph.add_sheet(sizes, *worker, &rows_of(entries, *stray)));
        }
        Item::Load { minutes } => graph.load_minutes(sizes, minutes),
    })
}

/// Number 1, as an item is answered it.
fn wrong_size(item: &Item) -> Told {
    match item {
        Item::AddSheet { .. } => Told::Each(graph::refused(refusal::SIZE)),
        _ => Told::One(graph::refused(refusal::SIZE)),
    }
}

/// Whether the words are as they were before an item that was told this.
fn leaves_all(item: &Item, told: &Told) -> bool {
    match (item, told) {
        (Item::Add { .. } | Item::Finish { .. }, Told::One(answer)) => answer.is_err(),
        (_, Told::One(answer)) => matches!(answer, Err(refusal) if changes_nothing(refusal.number)),
        (_, Told::Each(answers)) => answers.iter().flatten().all(Result::is_err),
    }
}

/// Numbers 6 to 8 put the words of the call back; every other refusal changes nothing.
pub fn changes_nothing(number: u32) -> bool {
    !(refusal::UNKNOWN_NAME..=refusal::FULL).contains(&number)
}

fn none_or_err(difference: Option<String>) -> Result<(), String> {
    difference.map_or(Ok(()), Err)
}

impl World {
    /// Lays out the first graph.
    pub fn new(setup: &Setup) -> Result<World, String> {
        let mut world = World {
            tables: Tables::new(setup),
            tails: Default::default(),
            graph: Graph::lay_out(setup.sizes).map_err(|_| "the first sizes are off their limits")?,
            index: Index::default(),
            history: History::default(),
            entries: Entries::default(),
            hand_outs: HandOuts::default(),
            book: Book::new(setup.sizes),
            endings: Vec::new(),
            items: 0,
        };
        world.lay_out(setup.sizes)?;
        Ok(world)
    }

    pub fn graph(&self) -> &Graph {
        &self.graph
    }

    /// The library's answer of an event, or how it differs from what is expected.
    pub fn apply(&mut self, event: &Event) -> Result<(), String> {
        match event {
            Event::LayOut(sizes) => self.lay_out(*sizes),
            Event::Call(call) => self.call(call),
            Event::Set { .. } => Err("damage has no place in a history that the second implementation follows".into()),
        }
    }

    fn lay_out(&mut self, sizes: Sizes) -> Result<(), String> {
        use proved::kind;
        let laid_out = Graph::lay_out(sizes).ok().filter(|_| layout::suffice(self.tables.lens(), sizes));
        let before = self.tables.clone();
        let answer = proved::lay_out(to_library(sizes), &mut self.tables.lent(None));
        let expected = match laid_out {
            Some(_) => proved::Answer { kind: kind::LAID_OUT, ..proved::Answer::default() },
            None => proved::Answer { number: refusal::SIZE, ..proved::Answer::default() },
        };
        none_or_err(differ("tg_lay_out", answer, expected))?;
        match laid_out {
            None => none_or_err(Tables::difference(&before, &self.tables)),
            Some(graph) => {
                let need = layout::words_needed(sizes);
                let tail = |table: usize| before.words(table)[need[table]..].to_vec();
                self.tails = [tail(0), tail(1), tail(2), tail(3), tail(4)];
                self.graph = graph;
                self.index = Index::default();
                self.history = History::default();
                self.entries = Entries::default();
                self.hand_outs = HandOuts::default();
                self.book = Book::new(sizes);
                self.endings.clear();
                self.check_tables()
            }
        }
    }

    fn call(&mut self, call: &Call) -> Result<(), String> {
        let quiet = !self.history.is_half_done();
        let sizes = call.sizes.unwrap_or_else(|| self.graph.sizes());
        // Sizes other than those laid out are refused whatever the lengths, so the need is theirs.
        let long_enough = layout::suffice(self.tables.cut_lens(call.short), self.graph.sizes());
        let expected =
            if long_enough { call_second(&mut self.graph, sizes, &call.item) } else { wrong_size(&call.item) };
        self.index.follow(&self.graph);
        // The tables are large, and copied only where they are compared with what they were.
        let unchanged = leaves_all(&call.item, &expected);
        let before = (unchanged || is_whole(&call.item)).then(|| self.tables.clone());
        let told = call_library(sizes, &mut self.tables.lent(call.short), &call.item);
        none_or_err(differ("the answer", &told, &LibraryTold::of(&expected)))?;
        if let Some(before) = before {
            let changed = Tables::difference(&before, &self.tables).filter(|_| unchanged);
            none_or_err(changed)?;
            none_or_err(whole::beside_single_calls(before, sizes, call, &told, &self.tables))?;
        }
        self.check_state(sizes, call)?;
        self.check_tables()?;
        self.check_order(&expected)?;
        if let (true, Item::Get { .. }, Told::One(Ok(reply))) = (quiet, &call.item, &expected) {
            self.check_none_ready(*reply)?;
        }
        let decided = self.history.calls().len() + whole::decided(&call.item, &expected);
        self.history.take(&call.item, &expected);
        if is_whole(&call.item) {
            none_or_err(differ("the calls that a whole one counts as", self.history.calls().len(), decided))?;
        }
        self.check_drained()?;
        self.check_history()
    }

    /// What the worker of a call holds, for a load worker 0, whether the graph is drained, and its minutes, asked with
    /// the call's sizes and tables.
    fn check_state(&self, sizes: Sizes, call: &Call) -> Result<(), String> {
        let worker = worker_of(&call.item).unwrap_or(0);
        let long_enough = layout::suffice(self.tables.cut_lens(call.short), self.graph.sizes());
        let (holding, drained) = if long_enough {
            (self.graph.held(sizes, worker), self.graph.drained(sizes))
        } else {
            (graph::refused(refusal::SIZE), graph::refused(refusal::SIZE))
        };
        let tables = self.tables.read(call.short);
        self.check_minutes(sizes, tables[JOBS])?;
        let answer = proved::held(to_library(sizes), tables, worker);
        none_or_err(differ("tg_held", answer, holding_to_library(holding)))?;
        let answer = proved::drained(to_library(sizes), tables);
        none_or_err(differ("tg_drained", answer, drained_to_library(drained)))
    }

    /// The minutes of the graph, which reads the jobs table alone.
    fn check_minutes(&self, sizes: Sizes, jobs: &[u32]) -> Result<(), String> {
        let long_enough = jobs.len() >= layout::words_needed(self.graph.sizes())[JOBS];
        let minutes = self.graph.minutes(sizes).map_err(|refusal| refusal.number);
        let expected = if long_enough { minutes } else { Err(refusal::SIZE) };
        let answer = proved::minutes_of_graph(to_library(sizes), jobs);
        none_or_err(differ("tg_minutes_of_graph", answer, minutes_to_library(expected)))
    }

    /// The graph is drained exactly if no call is half done and every job that entered is finished.
    fn check_drained(&self) -> Result<(), String> {
        let finished = self.graph.jobs().iter().all(|job| job.label == Label::Finished);
        let expected = drained_to_library(Ok(finished && !self.history.is_half_done()));
        let answer = proved::drained(to_library(self.graph.sizes()), self.tables.read(None));
        none_or_err(differ("tg_drained, beside labels and history", answer, expected))
    }

    fn check_tables(&mut self) -> Result<(), String> {
        none_or_err(expected_words::difference(&self.graph, &self.index, &self.tables))?;
        let need = layout::words_needed(self.graph.sizes());
        let touched = (0..5).find(|table| self.tables.words(*table)[need[*table]..] != self.tails[*table][..]);
        none_or_err(touched.map(|table| format!("words past the need of table {table} were touched")))?;
        none_or_err(self.tables.broken_guard())
    }

    /// The jobs in the index are those that wait, and each job is handed out when it is due.
    fn check_order(&mut self, told: &Told) -> Result<(), String> {
        let mut balance = vec![0_i32; view::made(&self.tables, self.graph.sizes())];
        let mut count = |job: usize, by: i32| balance.get_mut(job).map(|balance| *balance += by);
        let known = view::queue(&self.tables).all(|job| count(job, 1).is_some())
            && view::indexed(&self.tables).all(|job| count(job, -1).is_some());
        if !known || balance.iter().any(|balance| *balance != 0) {
            let (index, queue) = (view::indexed(&self.tables), view::queue(&self.tables));
            let (index, queue): (Vec<usize>, Vec<usize>) = (index.collect(), queue.collect());
            return Err(format!("the index has the jobs {index:?}, and {queue:?} wait"));
        }
        let handed_out = match told {
            Told::One(Ok(Reply::HandedOut { job, .. })) => Some(*job),
            _ => None,
        };
        let tables = &self.tables;
        none_or_err(self.hand_outs.take(handed_out, view::queue(tables), |job| view::minutes(tables, job)))
    }

    /// With no call half done, "none ready" is given exactly if no job is ready in the book.
    fn check_none_ready(&self, reply: Reply) -> Result<(), String> {
        none_or_err(differ(
            "with no call half done: none ready, beside no job ready in the book",
            reply == Reply::NoneReady,
            !self.book.any_ready(),
        ))
    }

    fn check_history(&mut self) -> Result<(), String> {
        self.items += 1;
        let sizes = self.graph.sizes();
        let made = view::made(&self.tables, sizes);
        self.entries.take(made, view::queue(&self.tables));
        for call in &self.history.calls()[self.endings.len()..] {
            self.endings.push(self.book.feed(call.worker, &call.request));
        }
        let all_now = self.items % (1 + made / SMALL) == 0;
        if all_now {
            let is_finished = |job: usize| view::label(&self.tables, job) == FINISHED;
            none_or_err(self.history.wrong_entries(&self.entries, is_finished))?;
            none_or_err(self.history.wrong_marks(&self.entries, &view::shown(&self.tables, sizes)))?;
            self.check_totals()?;
        }
        if !self.history.is_half_done() {
            self.check_book(all_now)?;
        }
        Ok(())
    }

    /// With no call half done: how each call ended, and the view, equal the book's.
    fn check_book(&self, all_calls: bool) -> Result<(), String> {
        let calls = self.history.calls();
        let since = if all_calls { 0 } else { calls.len().saturating_sub(SMALL) };
        for (call, ending) in calls.iter().zip(&self.endings).skip(since) {
            none_or_err(differ("how a call ended, beside the book", call.ending, Some(*ending)))?;
        }
        let (view, book) = (view::view(&self.tables, self.graph.sizes()), self.book.view());
        if view == book {
            return Ok(());
        }
        let jobs = view.jobs.iter().zip(&book.jobs).enumerate();
        let job = jobs
            .filter(|(_, (one, other))| one != other)
            .map(|(job, (one, other))| format!("job {job}, beside the book\n  library  {one:?}\n  expected {other:?}"));
        let holds = differ("what each worker holds, beside the book", &view.holds, &book.holds);
        let count = differ("the number of jobs, beside the book", view.jobs.len(), book.jobs.len());
        none_or_err(job.into_iter().next().or(holds).or(count))
    }

    /// The board over the graph, and that over a row of its jobs by the minutes that stand in it.
    fn check_totals(&self) -> Result<(), String> {
        let sizes = self.graph.sizes();
        let answer = proved::totals_of_graph(to_library(sizes), self.tables.words(JOBS));
        let expected = compare_sheets::totals::expected(self.graph.totals(sizes));
        none_or_err(differ("tg_totals_of_graph", answer, expected))?;
        let record = |job: &graph::Job| proved::JobRecord { label: job.label as u32, class: job.class };
        let records: Vec<proved::JobRecord> = self.graph.jobs().iter().map(record).collect();
        let answer = proved::totals_by_minutes(&records, layout::stored_minutes(self.tables.words(JOBS)));
        none_or_err(differ("tg_totals_by_minutes, beside the graph's board", answer, expected))
    }
}
