//! The unproved implementation that the library is timed beside gives the same answers and leaves the same
//! words.

use bench_graph::{
    calls::{build, Arena, Calls, FirstIn, Manner, Proved, Unproved},
    shapes::{self, Shape},
};
use compare_graph::{
    damaged,
    event::{rows_of, Event, History},
    generate, histories,
    tables::Tables,
    world::{entry_to_library, to_library, LibraryTold},
};
use compare_sheets::random::{seed, Random};
use second_implementation::history::Item;
use taskgraph::raw::{self, kind, Sizes, GOOD};

fn call<C: Calls>(event: &Event, laid_out: &mut Sizes, tables: &mut Tables) -> Option<LibraryTold> {
    match event {
        Event::LayOut(sizes) => {
            let answer = C::lay_out(to_library(*sizes), &mut tables.lent(None));
            if answer.number == 0 {
                *laid_out = to_library(*sizes);
            }
            Some(LibraryTold::One(answer))
        }
        Event::Set { table, place, value } => {
            tables.set(*table, *place, *value);
            None
        }
        Event::Call(call) => {
            let sizes = call.sizes.map_or(*laid_out, to_library);
            Some(call_item::<C>(&call.item, sizes, &mut tables.lent(call.short)))
        }
    }
}

fn call_item<C: Calls>(item: &Item, sizes: Sizes, tables: &mut raw::Tables) -> LibraryTold {
    LibraryTold::One(match item {
        Item::PostAdd { worker, entry } => C::post_add(sizes, tables, *worker, entry_to_library(entry)),
        Item::PostFinish { worker, name, outcome } => C::post_finish(sizes, tables, *worker, *name, *outcome),
        Item::Step { worker } => C::step(sizes, tables, *worker),
        Item::Get { worker } => C::get(sizes, tables, *worker),
        Item::Add { worker, entry } => C::add(sizes, tables, *worker, entry_to_library(entry)),
        Item::Finish { worker, name, outcome } => C::finish(sizes, tables, *worker, *name, *outcome),
        Item::AddSheet { worker, entries, stray } => {
            let added = C::add_sheet(sizes, tables, *worker, &rows_of(entries, *stray));
            return LibraryTold::Each(Box::new(added));
        }
        Item::Load { minutes } => C::load_minutes(sizes, tables, minutes),
    })
}

/// Panics at the first event after which the two differ.
fn compare(history: &History) {
    let sizes = to_library(history.setup.sizes);
    let mut tables = [Tables::new(&history.setup), Tables::new(&history.setup)];
    let mut laid_out = [sizes; 2];
    let first = Event::LayOut(history.setup.sizes);
    for (number, event) in std::iter::once(&first).chain(&history.events).enumerate() {
        let proved = call::<Proved>(event, &mut laid_out[0], &mut tables[0]);
        let unproved = call::<Unproved>(event, &mut laid_out[1], &mut tables[1]);
        assert_eq!(proved, unproved, "the answers of event {number} of\n{history}");
        let difference = Tables::difference(&tables[0], &tables[1]);
        assert_eq!(difference, None, "the words after event {number} of\n{history}");
    }
}

#[test]
fn the_same_on_random_histories() {
    for number in 0..histories(5_000) {
        compare(&generate::history(&mut Random::nth(seed(), "unproved", number)));
    }
}

/// They make the same tests, so they agree on damaged tables too.
#[test]
fn the_same_on_damaged_tables() {
    for number in 0..histories(5_000) {
        compare(&damaged::history(&mut Random::nth(seed(), "unproved, damaged", number)));
    }
}

/// The names of a shape's jobs, in the order in which one worker is handed them.
fn hand_outs<C: Calls>(shape: &Shape) -> Vec<u32> {
    let sizes = shape.sizes(4);
    let mut arena = Arena::new(sizes);
    let mut tables = arena.lent();
    build::<C>(Manner::Whole, sizes, &mut tables, shape);
    let mut names = Vec::new();
    loop {
        let answer = C::get(sizes, &mut tables, 0);
        if answer.kind != kind::HANDED_OUT {
            return names;
        }
        names.push(answer.name);
        assert_eq!(C::finish(sizes, &mut tables, 0, answer.name, GOOD).kind, kind::ENDED);
    }
}

/// Jobs of one class are handed out first in, first out, so the rules without the index do the same on them.
#[test]
fn the_same_order_without_the_index_on_one_class() {
    for mut shape in [shapes::random(256, 4), shapes::fans(99), shapes::grid(8)] {
        shape.entries.iter_mut().for_each(|entry| entry.class = 7);
        let by_index = hand_outs::<Unproved>(&shape);
        assert_eq!(by_index.len(), shape.lists.len());
        assert_eq!(by_index, hand_outs::<FirstIn>(&shape), "{}", shape.name);
    }
}
