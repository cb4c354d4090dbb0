//! Histories over damaged tables: words altered at random, tables cut short, sizes swapped. Every answer is
//! the one that the list of docs/NUMBERS.md and `docs/TABLES.md` settle, and the tables hold afterwards what the list
//! says, word for word. A call run whole, and a sheet, answer and leave what single calls do, each of which is judged so.

mod answer;
mod make;
mod met;

use compare_sheets::case::{differ, Case};
use second_implementation::{
    graph::{Graph, Sizes},
    history::Item,
    refusal,
    sheet::MAX_NAMES,
};
use taskgraph::raw::{self as proved, kind};

use crate::{
    event::{is_whole, Call, Event, History},
    expected_words,
    index::Index,
    layout::{self, worker},
    tables::{Tables, JOBS, WORKERS},
    whole::{told_by_single_calls, SingleCalls},
    world::{call_library, minutes_to_library, to_library, LibraryTold},
};

use answer::{
    expected, expected_drained, expected_holding, expected_load, expected_minutes, expected_totals, of_kind, refused,
    worker_asked,
};

pub use answer::Flag;
pub use make::{history, numbered};
pub use met::{By, Meeting, Met, Use, Way};

/// A history, and where it is noted what its calls meet.
pub struct Damaged<'a>(pub History, pub &'a Met);

impl Case for Damaged<'_> {
    fn difference(&self) -> Option<String> {
        first_fault(&self.0, self.1).map(|(number, fault)| format!("event {number}: {fault}"))
    }

    fn smaller(&self) -> Box<dyn Iterator<Item = Self> + '_> {
        Box::new(self.0.smaller().map(|history| Damaged(history, self.1)))
    }

    fn show(&self) -> String {
        format!("(to be read back by `cargo run --release --offline -p compare_graph --bin replay`)\n{}", self.0)
    }
}

/// The number of the first event at which the list is not kept, and how.
pub fn first_fault(history: &History, met: &Met) -> Option<(usize, String)> {
    let mut lent = Lent { tables: Tables::new(&history.setup), sizes: history.setup.sizes, met };
    let all = std::iter::once(Event::LayOut(history.setup.sizes)).chain(history.events.iter().cloned());
    let last = history.events.len() + 1;
    all.enumerate()
        .find_map(|(number, event)| lent.fault(&event).map(|fault| (number, fault)))
        .or_else(|| lent.run_out().map(|fault| (last, fault)))
}

/// The tables, and the sizes that calls bring.
#[derive(Clone)]
struct Lent<'a> {
    tables: Tables,
    sizes: Sizes,
    met: &'a Met,
}

impl Lent<'_> {
    fn fault(&mut self, event: &Event) -> Option<String> {
        match event {
            Event::Set { table, place, value } => {
                self.tables.set(*table, *place, *value);
                None
            }
            Event::LayOut(sizes) => self.lay_out(*sizes),
            Event::Call(call) if is_whole(&call.item) => self.whole(call).or_else(|| self.wrong_totals(call)),
            Event::Call(call) => self.single(call).1.or_else(|| self.wrong_totals(call)),
        }
    }

    fn lay_out(&mut self, sizes: Sizes) -> Option<String> {
        let before = self.tables.clone();
        let answer = proved::lay_out(to_library(sizes), &mut self.tables.lent(None));
        let fresh = Graph::lay_out(sizes).ok().filter(|_| layout::suffice(self.tables.lens(), sizes));
        let expected = if fresh.is_some() { of_kind(kind::LAID_OUT) } else { refused(refusal::SIZE) };
        if answer != expected {
            return Some(format!("tg_lay_out answers {answer:?}, not {expected:?}"));
        }
        match fresh {
            None => Tables::difference(&before, &self.tables),
            Some(graph) => {
                self.sizes = sizes;
                let wrong = expected_words::difference(&graph, &Index::default(), &self.tables);
                wrong.or_else(|| self.touched_past_the_need(&before))
            }
        }
    }

    /// How a whole call differs from single calls over the same words, or the fault of one of these.
    fn whole(&mut self, call: &Call) -> Option<String> {
        let before = self.tables.clone();
        let mut judged = Judged { lent: self.clone(), call, fault: None };
        let expected = told_by_single_calls(&mut judged, &call.item)?;
        let told = call_library(call.sizes.unwrap_or(self.sizes), &mut self.tables.lent(call.short), &call.item);
        self.met.note_whole(&call.item, &told);
        let single = judged.fault.map(|fault| format!("a single call of a whole one: {fault}"));
        single
            .or_else(|| self.wrongly_stopped(&before, &told))
            .or_else(|| differ("the answer, beside single calls", told, expected))
            .or_else(|| {
                let words = Tables::difference(&judged.lent.tables, &self.tables);
                words.map(|words| format!("after a whole call; single calls leave the first: {words}"))
            })
    }

    /// An add or a finish that answers 9 is told as stopped exactly where it changed the tables.
    fn wrongly_stopped(&self, before: &Tables, told: &LibraryTold) -> Option<String> {
        let LibraryTold::One(answer) = told else { return None };
        if answer.number != refusal::DAMAGED {
            return None;
        }
        let changed = Tables::difference(before, &self.tables);
        differ("stopped, beside changed tables", answer.kind == kind::STOPPED, changed.is_some())
    }

    /// The answer of a single call, and its fault.
    fn single(&mut self, call: &Call) -> (proved::Answer, Option<String>) {
        let sizes = call.sizes.unwrap_or(self.sizes);
        let expected = match &call.item {
            Item::Load { minutes } => expected_load(&self.tables, sizes, call.short, minutes),
            _ => expected(&self.tables, sizes, call),
        };
        self.met.note(&self.tables, matches!(call.item, Item::Get { .. }), &expected);
        self.met.note_flags(&call.item, &expected);
        let answer = expected.answer;
        if let Some(fault) = self.wrong_state(sizes, call) {
            return (answer, Some(fault));
        }
        let mut after = self.tables.clone();
        let told = call_library(sizes, &mut self.tables.lent(call.short), &call.item);
        if told != LibraryTold::One(answer) {
            return (answer, Some(format!("the answer is {told:?}, not {answer:?}")));
        }
        expected.writes.into_iter().for_each(|(table, place, word)| after.set(table, place, word));
        if let (kind::POSTED, Item::PostFinish { worker, .. }) = (answer.kind, &call.item) {
            self.keep_own_affair(&mut after, *worker);
        }
        let fault = Tables::difference(&after, &self.tables);
        (answer, fault.map(|fault| format!("beside what is expected, {fault}")))
    }

    /// The name, the job and the arc of a finish that is posted are the library's own affair.
    fn keep_own_affair(&self, expected: &mut Tables, worker: u32) {
        for field in [worker::NAME, worker::JOB, worker::ARC] {
            let place = layout::worker_at(worker as usize) + field;
            expected.set(WORKERS, place, self.tables.words(WORKERS)[place]);
        }
    }

    /// What the worker of a call holds and whether the graph is drained, asked with the call's sizes and tables.
    fn wrong_state(&self, sizes: Sizes, call: &Call) -> Option<String> {
        let holding = expected_holding(&self.tables, sizes, call);
        let drained = expected_drained(&self.tables, sizes, call.short);
        let tables = self.tables.read(call.short);
        differ("tg_held", proved::held(to_library(sizes), tables, worker_asked(call)), holding)
            .or_else(|| differ("tg_drained", proved::drained(to_library(sizes), tables), drained))
    }

    fn touched_past_the_need(&self, before: &Tables) -> Option<String> {
        let need = layout::words_needed(self.sizes);
        let touched =
            (0..5).find(|table| self.tables.words(*table)[need[*table]..] != before.words(*table)[need[*table]..]);
        touched
            .map(|table| format!("words past the need of table {table} were touched"))
            .or_else(|| self.tables.broken_guard())
    }

    /// The board and the minutes of the graph, with the sizes laid out and with those and the jobs table of a call.
    fn wrong_totals(&self, call: &Call) -> Option<String> {
        let brought = call.sizes.unwrap_or(self.sizes);
        let cut = self.tables.read(call.short)[JOBS];
        [(self.sizes, self.tables.words(JOBS)), (brought, cut)].into_iter().find_map(|(sizes, jobs)| {
            let totals = compare_sheets::totals::expected(expected_totals(jobs, sizes));
            let minutes = minutes_to_library(expected_minutes(jobs, sizes));
            self.met.note_board(&totals, &minutes);
            differ("tg_totals_of_graph", proved::totals_of_graph(to_library(sizes), jobs), totals)
                .or_else(|| differ("tg_minutes_of_graph", proved::minutes_of_graph(to_library(sizes), jobs), minutes))
        })
    }

    /// Every call half done ends, or is refused, after a bounded number of steps: an add has at most
    /// 2d + 2, and each step of a finish lowers a count.
    fn run_out(&mut self) -> Option<String> {
        let most = 2 * MAX_NAMES + 4 + MAX_NAMES * self.sizes.jobs as usize;
        (0..self.sizes.workers).find_map(|worker| {
            let step = Call { item: Item::Step { worker }, sizes: None, short: None };
            for _ in 0..most {
                let (answer, fault) = self.single(&step);
                if fault.is_some() {
                    return fault;
                }
                if answer.kind != kind::GOING_ON {
                    return None;
                }
            }
            Some(format!("worker {worker} goes on after {most} steps"))
        })
    }
}

/// The single calls of a whole one, over tables of their own, and the first fault among them.
struct Judged<'a> {
    lent: Lent<'a>,
    call: &'a Call,
    fault: Option<String>,
}

impl SingleCalls for Judged<'_> {
    fn call(&mut self, item: Item) -> proved::Answer {
        let call = Call { item, sizes: self.call.sizes, short: self.call.short };
        let (answer, fault) = self.lent.single(&call);
        self.fault = self.fault.take().or(fault);
        answer
    }

    fn most_arcs(&self) -> usize {
        self.call.sizes.unwrap_or(self.lent.sizes).arcs as usize
    }
}
