//! The request's equation: a call run whole, and a sheet, answer and leave what single calls do, posts and steps one
//! by one with no other worker's step between. Here both are the library's own.

use compare_sheets::case::differ;
use second_implementation::{
    graph::{Refusal, Sizes},
    history::{Item, Told},
    refusal,
    sheet::{Entry, MAX_CLASS},
};
use taskgraph::raw::{kind, Answer, SheetAdded, MAX_ENTRIES};

use crate::{
    event::{worker_of, Call},
    tables::Tables,
    world::{call_library, LibraryTold},
};

/// Single calls by one worker.
pub trait SingleCalls {
    fn call(&mut self, item: Item) -> Answer;

    /// A: the most arcs there are.
    fn most_arcs(&self) -> usize;
}

/// What an item is told where it is made of single calls; `None` for one that is a single call itself.
pub fn told_by_single_calls(calls: &mut impl SingleCalls, item: &Item) -> Option<LibraryTold> {
    match item {
        Item::Add { worker, entry } => Some(LibraryTold::One(add(calls, *worker, entry))),
        Item::Finish { worker, name, outcome } => Some(LibraryTold::One(finish(calls, *worker, *name, *outcome))),
        Item::AddSheet { worker, entries, stray } => {
            Some(LibraryTold::Each(Box::new(sheet(calls, *worker, entries, *stray))))
        }
        _ => None,
    }
}

/// Steps, as many as there may be, until one does not go on. Number 9 once the call is posted is met in its middle: the
/// post has changed the tables, and the call is half done.
fn run(calls: &mut impl SingleCalls, worker: u32, posted: Answer, most: usize) -> Answer {
    let goes_on = |answer: &Answer| answer.kind == kind::POSTED || answer.kind == kind::GOING_ON;
    let in_its_middle = goes_on(&posted);
    let mut answer = posted;
    for _ in 0..most {
        if !goes_on(&answer) {
            break;
        }
        answer = calls.call(Item::Step { worker });
    }
    if in_its_middle && answer.kind == kind::REFUSED && answer.number == refusal::DAMAGED {
        return Answer { kind: kind::STOPPED, ..answer };
    }
    answer
}

fn add(calls: &mut impl SingleCalls, worker: u32, entry: &Entry) -> Answer {
    let posted = calls.call(Item::PostAdd { worker, entry: *entry });
    // A list that is too long is refused as it is posted.
    run(calls, worker, posted, entry.prerequisites.count.saturating_mul(2).saturating_add(2))
}

fn finish(calls: &mut impl SingleCalls, worker: u32, name: u32, outcome: u32) -> Answer {
    let posted = calls.call(Item::PostFinish { worker, name, outcome });
    run(calls, worker, posted, calls.most_arcs() + 1)
}

fn sheet(calls: &mut impl SingleCalls, worker: u32, entries: &[Entry], stray: usize) -> SheetAdded {
    let mut added = SheetAdded { number: turned_away(calls, worker, entries, stray), ..SheetAdded::default() };
    if added.number == 0 {
        for (place, entry) in entries.iter().enumerate() {
            let answer = add(calls, worker, entry);
            added.numbers[place] = answer.number;
            added.places[place] = answer.place;
            if answer.kind == kind::STOPPED {
                added.stopped = place as u32 + 1;
            }
        }
    }
    added
}

/// The number that turns a sheet away, or 0. An add with a wrong class is a question: it changes nothing, and is
/// refused by 1, 2, 9 for the worker's own words or 3, exactly if a sheet is, and else by 5.
fn turned_away(calls: &mut impl SingleCalls, worker: u32, entries: &[Entry], stray: usize) -> u32 {
    if stray > 0 {
        return refusal::SIZE;
    }
    let wrong = Entry { class: MAX_CLASS + 1, ..Entry::default() };
    match calls.call(Item::PostAdd { worker, entry: wrong }).number {
        refusal::ARGUMENTS if entries.len() > MAX_ENTRIES => refusal::TOO_MANY_ENTRIES,
        refusal::ARGUMENTS => 0,
        number => number,
    }
}

/// The library's calls over tables of their own.
struct Library<'a> {
    tables: Tables,
    sizes: Sizes,
    call: &'a Call,
}

impl SingleCalls for Library<'_> {
    fn call(&mut self, item: Item) -> Answer {
        debug_assert_eq!(worker_of(&item), worker_of(&self.call.item));
        match call_library(self.sizes, &mut self.tables.lent(self.call.short), &item) {
            LibraryTold::One(answer) => answer,
            LibraryTold::Each(_) => panic!("a sheet is no single call"),
        }
    }

    fn most_arcs(&self) -> usize {
        self.sizes.arcs as usize
    }
}

/// How a whole call differs from single calls over the tables as they were before it.
pub fn beside_single_calls(
    before: Tables,
    sizes: Sizes,
    call: &Call,
    told: &LibraryTold,
    after: &Tables,
) -> Option<String> {
    let mut library = Library { tables: before, sizes, call };
    let single = told_by_single_calls(&mut library, &call.item)?;
    differ("the answer, beside single calls", told, &single).or_else(|| {
        let words = Tables::difference(&library.tables, after);
        words.map(|words| format!("after a whole call; single calls leave the first: {words}"))
    })
}

/// How many calls a whole one counts as for the book, where no word is damaged: none if 1 to 3 or 16 turns it away, and
/// else one, or one for each entry.
pub fn decided(item: &Item, told: &Told) -> usize {
    let turned_away = |refusal: &Refusal| refusal.number <= refusal::HALF_DONE;
    match (item, told) {
        (Item::AddSheet { entries, .. }, Told::Each(Ok(_))) => entries.len(),
        (_, Told::One(Ok(_))) => 1,
        (_, Told::One(Err(refusal))) => usize::from(!turned_away(refusal)),
        _ => 0,
    }
}

/// How a whole call or a load was answered: what it is, and the number, where 0 is accepted, `HALF_LEFT` a finish that
/// goes on, and `STOPPED` a call or an entry that damage stopped half done. Of a sheet there is one for the sheet and one
/// for each entry.
pub fn ways(item: &Item, told: &LibraryTold) -> Vec<(&'static str, u32)> {
    match (item, told) {
        (Item::Add { .. }, LibraryTold::One(answer)) => vec![("add", unless_stopped(answer))],
        (Item::Finish { .. }, LibraryTold::One(answer)) if answer.kind == kind::GOING_ON => {
            vec![("finish", HALF_LEFT)]
        }
        (Item::Finish { .. }, LibraryTold::One(answer)) => vec![("finish", unless_stopped(answer))],
        (Item::AddSheet { entries, .. }, LibraryTold::Each(added)) => {
            let served = if added.number == 0 { entries.len() } else { 0 };
            let number = |(place, number): (usize, &u32)| {
                ("entry", if added.stopped as usize == place + 1 { STOPPED } else { *number })
            };
            let entries = added.numbers.iter().take(served).enumerate().map(number);
            std::iter::once(("sheet", added.number)).chain(entries).collect()
        }
        (Item::Load { .. }, LibraryTold::One(answer)) => vec![("load", answer.number)],
        _ => Vec::new(),
    }
}

fn unless_stopped(answer: &Answer) -> u32 {
    if answer.kind == kind::STOPPED {
        STOPPED
    } else {
        answer.number
    }
}

/// No number: a finish that answers "going on".
pub const HALF_LEFT: u32 = u32::MAX;

/// No number: a call that damage stopped half done.
pub const STOPPED: u32 = u32::MAX - 1;
