//! What happens in a history: laying out anew, the items of a list, and damage.

use compare_sheets::shrink;
use second_implementation::{
    graph::Sizes,
    history::Item,
    minutes::Minutes,
    sheet::{Entry, MAX_NAMES, ROW_WORDS},
};

use crate::tables::Setup;

/// So many events and fewer are cut call by call.
const FEW_EVENTS: usize = 600;

#[derive(Clone, Debug, PartialEq, Eq)]
pub enum Event {
    /// Laying out anew.
    LayOut(Sizes),
    Call(Call),
    /// Damage: a word is altered.
    Set {
        table: usize,
        place: usize,
        value: u32,
    },
}

/// An item and how it is brought.
#[derive(Clone, Debug, PartialEq, Eq)]
pub struct Call {
    pub item: Item,
    /// Sizes other than those laid out.
    pub sizes: Option<Sizes>,
    /// A table that is cut to so many words for this call.
    pub short: Option<(usize, usize)>,
}

impl From<Item> for Event {
    fn from(item: Item) -> Event {
        Event::Call(Call { item, sizes: None, short: None })
    }
}

/// Tables and what happens to them, the first laying out aside.
#[derive(Clone, Debug, PartialEq, Eq)]
pub struct History {
    pub setup: Setup,
    pub events: Vec<Event>,
}

impl History {
    /// Whether words are altered in it, so that the second implementation cannot follow.
    pub fn is_damaged(&self) -> bool {
        self.events.iter().any(|event| matches!(event, Event::Set { .. }))
    }

    /// Simpler histories, the boldest cuts first.
    pub fn smaller(&self) -> impl Iterator<Item = History> + '_ {
        // Whole calls come first where there are few: their events lie apart, and no range has them alone.
        let most = if self.events.len() <= FEW_EVENTS { usize::MAX } else { 0 };
        let by_calls = self.without_a_worker().chain(self.without_a_call()).take(most);
        let by_ranges = shrink::shorter(&self.events, 1).map(move |events| self.with_events(events));
        let shorter = by_calls.chain(by_ranges);
        let simpler = self.events.iter().enumerate().flat_map(move |(place, event)| {
            simpler_events(event).into_iter().map(move |event| self.with_event(place, event))
        });
        shorter.chain(self.simpler_setups()).chain(simpler).chain(self.renamed())
    }

    /// Without all items of one worker.
    fn without_a_worker(&self) -> impl Iterator<Item = History> + '_ {
        let workers = self.used(|item| worker_of(item).into_iter().collect());
        workers.into_iter().map(move |worker| self.kept(|_, item| worker_of(item) != Some(worker)))
    }

    /// Without one post or get and the steps that follow it, or without one load.
    fn without_a_call(&self) -> impl Iterator<Item = History> + '_ {
        let starts = self.events.iter().enumerate().filter_map(|(start, event)| match event {
            Event::Call(call) if !is_step(event) => Some((start, worker_of(&call.item))),
            _ => None,
        });
        starts.map(move |(start, worker)| {
            if worker.is_none() {
                return self.kept(|place, _| place != start);
            }
            let of_worker = |event: &Event| matches!(event, Event::Call(call) if worker_of(&call.item) == worker);
            let later = self.events[start + 1..].iter().position(|event| of_worker(event) && !is_step(event));
            let end = later.map_or(self.events.len(), |later| start + 1 + later);
            self.kept(|place, item| !(start..end).contains(&place) || worker_of(item) != worker)
        })
    }

    /// With the items for which `keep` is true, and all other events.
    fn kept(&self, keep: impl Fn(usize, &Item) -> bool) -> History {
        let kept = self.events.iter().enumerate().filter(|(place, event)| match event {
            Event::Call(call) => keep(*place, &call.item),
            _ => true,
        });
        self.with_events(kept.map(|(_, event)| event.clone()).collect())
    }

    fn with_events(&self, events: Vec<Event>) -> History {
        History { setup: self.setup.clone(), events }
    }

    fn with_event(&self, place: usize, event: Event) -> History {
        let mut history = self.clone();
        history.events[place] = event;
        history
    }

    fn simpler_setups(&self) -> impl Iterator<Item = History> + '_ {
        let setup = &self.setup;
        let plain = Setup { slack: [0; 5], fill: 0, ..setup.clone() };
        let lower = |number: u32| shrink::lower(u64::from(number)).map(|low| low as u32);
        let sizes = setup.sizes;
        let jobs = lower(sizes.jobs).map(move |jobs| Sizes { jobs, ..sizes });
        let arcs = lower(sizes.arcs).map(move |arcs| Sizes { arcs, ..sizes });
        let bits = lower(sizes.bits).map(move |bits| Sizes { bits, ..sizes });
        let workers = lower(sizes.workers).map(move |workers| Sizes { workers, ..sizes });
        let sizes = jobs.chain(arcs).chain(bits).chain(workers).filter(Sizes::within_limits);
        let lowered = sizes.map(move |sizes| Setup { sizes, ..setup.clone() });
        std::iter::once(plain)
            .chain(lowered)
            .filter(move |simpler| simpler != setup)
            .map(move |setup| History { setup, events: self.events.clone() })
    }

    /// With one name or one worker number replaced everywhere by a lower one that is not used.
    fn renamed(&self) -> impl Iterator<Item = History> + '_ {
        let names = self.used(names_of);
        let workers = self.used(|item| worker_of(item).into_iter().collect());
        let renamed_names = lower_replacements(&names)
            .into_iter()
            .map(move |(old, new)| self.mapped(|item| map_names(item, |name| if name == old { new } else { name })));
        let renamed_workers = lower_replacements(&workers).into_iter().map(move |(old, new)| {
            self.mapped(|item| {
                if let Some(worker) = worker_mut(item).filter(|worker| **worker == old) {
                    *worker = new;
                }
            })
        });
        renamed_names.chain(renamed_workers)
    }

    /// The numbers that a function finds in the items, sorted, each once.
    fn used(&self, numbers: fn(&Item) -> Vec<u32>) -> Vec<u32> {
        let mut used: Vec<u32> = self.items().flat_map(numbers).collect();
        used.sort_unstable();
        used.dedup();
        used
    }

    fn items(&self) -> impl Iterator<Item = &Item> {
        self.events.iter().filter_map(|event| match event {
            Event::Call(call) => Some(&call.item),
            _ => None,
        })
    }

    fn mapped(&self, change: impl Fn(&mut Item)) -> History {
        let mut history = self.clone();
        for event in &mut history.events {
            if let Event::Call(call) = event {
                change(&mut call.item);
            }
        }
        history
    }
}

fn is_step(event: &Event) -> bool {
    matches!(event, Event::Call(Call { item: Item::Step { .. }, .. }))
}

/// Each number with the lowest number that is not among them, where that is lower.
fn lower_replacements(used: &[u32]) -> Vec<(u32, u32)> {
    let free = (0..).find(|number| !used.contains(number)).unwrap_or(u32::MAX);
    used.iter().rev().filter(|number| **number > free).map(|number| (*number, free)).collect()
}

fn simpler_events(event: &Event) -> Vec<Event> {
    let call = match event {
        Event::Call(call) => call,
        Event::LayOut(_) => return Vec::new(),
        Event::Set { table, place, value } => {
            let lower = shrink::lower(u64::from(*value));
            return lower.map(|value| Event::Set { table: *table, place: *place, value: value as u32 }).collect();
        }
    };
    let mut simpler = vec![Call { sizes: None, ..call.clone() }, Call { short: None, ..call.clone() }];
    simpler.extend(simpler_items(&call.item).into_iter().map(|item| Call { item, ..call.clone() }));
    simpler.into_iter().filter(|simpler| simpler != call).map(Event::Call).collect()
}

fn simpler_items(item: &Item) -> Vec<Item> {
    match item {
        Item::PostAdd { worker, entry } => {
            simpler_entries(entry).into_iter().map(|entry| Item::PostAdd { worker: *worker, entry }).collect()
        }
        Item::Add { worker, entry } => {
            simpler_entries(entry).into_iter().map(|entry| Item::Add { worker: *worker, entry }).collect()
        }
        Item::PostFinish { worker, name, outcome } => shrink::lower(u64::from(*outcome))
            .map(|outcome| Item::PostFinish { worker: *worker, name: *name, outcome: outcome as u32 })
            .collect(),
        Item::Finish { worker, name, outcome } => shrink::lower(u64::from(*outcome))
            .map(|outcome| Item::Finish { worker: *worker, name: *name, outcome: outcome as u32 })
            .collect(),
        Item::AddSheet { worker, entries, stray } => simpler_sheets(*worker, entries, *stray),
        Item::Load { minutes } => {
            let shorter = shrink::shorter(minutes, 1).chain([Minutes::FIXED.values().to_vec()]);
            shorter.chain(shrink::lower_words(minutes)).map(|minutes| Item::Load { minutes }).collect()
        }
        _ => Vec::new(),
    }
}

/// A sheet with fewer entries, without stray words, or with one entry simpler.
fn simpler_sheets(worker: u32, entries: &[Entry], stray: usize) -> Vec<Item> {
    let sheet = |entries| Item::AddSheet { worker, entries, stray };
    let fewer = shrink::shorter(entries, 1).map(sheet);
    let plain = Item::AddSheet { worker, entries: entries.to_vec(), stray: 0 };
    let simpler = entries.iter().enumerate().flat_map(|(place, entry)| {
        simpler_entries(entry).into_iter().filter(move |simpler| simpler != entry).map(move |simpler| {
            let mut entries = entries.to_vec();
            entries[place] = simpler;
            sheet(entries)
        })
    });
    fewer.chain([plain]).chain(simpler).collect()
}

fn simpler_entries(entry: &Entry) -> Vec<Entry> {
    let mut simpler = vec![Entry { class: 0, ..*entry }, Entry { grower: 0, ..*entry }];
    let count = entry.prerequisites.count;
    if count <= MAX_NAMES {
        let mut plain = *entry;
        plain.prerequisites.names[count..].fill(0);
        simpler.push(plain);
        simpler.extend((0..count).map(|place| {
            let mut fewer = plain;
            fewer.prerequisites.names.copy_within(place + 1.., place);
            fewer.prerequisites.names[MAX_NAMES - 1] = 0;
            fewer.prerequisites.count -= 1;
            fewer
        }));
    }
    simpler
}

fn names_of(item: &Item) -> Vec<u32> {
    let mut names = Vec::new();
    map_names(&mut item.clone(), |name| {
        names.push(name);
        name
    });
    names
}

fn map_names(item: &mut Item, mut change: impl FnMut(u32) -> u32) {
    match item {
        Item::PostAdd { entry, .. } | Item::Add { entry, .. } => map_entry(entry, &mut change),
        Item::AddSheet { entries, .. } => entries.iter_mut().for_each(|entry| map_entry(entry, &mut change)),
        Item::PostFinish { name, .. } | Item::Finish { name, .. } => *name = change(*name),
        Item::Step { .. } | Item::Get { .. } | Item::Load { .. } => {}
    }
}

fn map_entry(entry: &mut Entry, change: &mut impl FnMut(u32) -> u32) {
    entry.name = change(entry.name);
    let count = entry.prerequisites.count.min(MAX_NAMES);
    entry.prerequisites.names[..count].iter_mut().for_each(|name| *name = change(*name));
}

/// The words that a sheet brings: a row for each entry, and so many words that make no whole row.
pub fn rows_of(entries: &[Entry], stray: usize) -> Box<[u32]> {
    let stray = stray.min(ROW_WORDS - 1);
    // In one piece of just this size, so that a memory checker sees its ends.
    entries.iter().flat_map(Entry::to_row).chain(std::iter::repeat(0).take(stray)).collect()
}

/// Whether an item is a call run whole, or a sheet of them.
pub fn is_whole(item: &Item) -> bool {
    matches!(item, Item::Add { .. } | Item::Finish { .. } | Item::AddSheet { .. })
}

/// The worker of an item; a load has none.
pub fn worker_of(item: &Item) -> Option<u32> {
    match item {
        Item::PostAdd { worker, .. }
        | Item::PostFinish { worker, .. }
        | Item::Step { worker }
        | Item::Get { worker }
        | Item::Add { worker, .. }
        | Item::Finish { worker, .. }
        | Item::AddSheet { worker, .. } => Some(*worker),
        Item::Load { .. } => None,
    }
}

fn worker_mut(item: &mut Item) -> Option<&mut u32> {
    match item {
        Item::PostAdd { worker, .. }
        | Item::PostFinish { worker, .. }
        | Item::Step { worker }
        | Item::Get { worker }
        | Item::Add { worker, .. }
        | Item::Finish { worker, .. }
        | Item::AddSheet { worker, .. } => Some(worker),
        Item::Load { .. } => None,
    }
}
