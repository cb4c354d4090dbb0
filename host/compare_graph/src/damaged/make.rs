//! Random histories with damage in the midst of them.

use compare_sheets::random::Random;
use second_implementation::{
    graph::{AddStage, Call as Half, Finish, Graph, Outcome, Sizes},
    history::Item,
    minutes::{CLASSES, MAX_MINUTES},
    sheet::{Names, MAX_NAMES},
};

use crate::{
    event::{worker_of, Call, Event, History},
    generate,
    index::Index,
    layout::{self, job, worker, NONE},
    tables::{ARCS, BUCKETS, JOBS, QUEUE, WORKERS},
};

/// The history with a number, in the test of a seed.
pub fn numbered(seed: u64, number: u64) -> History {
    history(&mut Random::nth(seed, "damaged tables", number))
}

/// A random history with damage in the midst of it.
pub fn history(random: &mut Random) -> History {
    let mut history = generate::history(random);
    if random.once_in(2) {
        history = with_counters_altered(random, history);
    }
    if random.once_in(4) {
        history = with_arcs_in_a_circle(random, history);
    }
    if random.once_in(3) {
        history = with_minutes_altered(random, history);
    }
    if random.once_in(2) {
        history = with_index_altered(random, history);
    }
    if random.once_in(2) {
        history = with_flags_altered(random, history);
    }
    let sizes = history.setup.sizes;
    for _ in 0..1 + random.below(6) {
        let place = history.events.len() - random.below(1 + history.events.len() * 2 / 3);
        let event = damage(random, sizes);
        history.events.insert(place, event);
    }
    for _ in 0..random.below(4) {
        let place = random.below(history.events.len());
        if let Event::Call(call) = &mut history.events[place] {
            match random.below(2) {
                0 => call.sizes = Some(generate::other_sizes(random, sizes)),
                _ => call.short = Some(generate::short(random, sizes)),
            }
        }
    }
    history
}

/// Before some of the calls a counter is altered; then it is put back, and the call comes again.
fn with_counters_altered(random: &mut Random, history: History) -> History {
    let History { setup, events } = history;
    let mut graph = Graph::lay_out(setup.sizes).expect("the sizes are within their limits");
    let mut altered = Vec::with_capacity(2 * events.len());
    for event in events {
        if matches!(event, Event::Call(_)) && random.once_in(4) {
            let taken = graph.queue().iter().filter(|job| !graph.waits(**job)).count();
            let (table, place, right) = random.pick(&[
                (JOBS, layout::MADE, graph.jobs().len()),
                (ARCS, layout::RESERVED, graph.arcs().len()),
                (QUEUE, layout::TAKEN, taken),
                (QUEUE, layout::PUT, graph.queue().len()),
            ]);
            altered.push(Event::Set { table, place, value: damaged_counter(random, graph.sizes()) });
            altered.push(event.clone());
            altered.push(Event::Set { table, place, value: right as u32 });
        }
        generate::follow(&mut graph, &setup, &event);
        altered.push(event);
    }
    History { setup, events: altered }
}

/// Before some of the calls the minutes of a class are altered; mostly the call comes again once they are put back, and
/// now and then a load comes, which does not read them.
fn with_minutes_altered(random: &mut Random, history: History) -> History {
    let History { setup, events } = history;
    let mut graph = Graph::lay_out(setup.sizes).expect("the sizes are within their limits");
    let mut altered = Vec::with_capacity(2 * events.len());
    for event in events {
        if matches!(event, Event::Call(_)) && random.once_in(8) {
            let minutes = graph.minutes(graph.sizes()).expect("these are the sizes laid out");
            let class = random.below(minutes.values().len());
            let place = layout::MINUTES + class;
            let value = damaged_minutes(random, minutes.values(), class);
            altered.push(Event::Set { table: JOBS, place, value });
            altered.push(event.clone());
            if random.once_in(3) {
                altered.push(generate::load(random).into());
            }
            // A load, where one was accepted, is undone so that the graph can be followed.
            let right = minutes.values().iter().enumerate();
            altered.extend(right.map(|(class, value)| Event::Set {
                table: JOBS,
                place: layout::MINUTES + class,
                value: *value,
            }));
        }
        generate::follow(&mut graph, &setup, &event);
        altered.push(event);
    }
    History { setup, events: altered }
}

/// Minutes of a class that are on the edge of what its neighbours and the limits allow, or off it.
fn damaged_minutes(random: &mut Random, values: &[u32], class: usize) -> u32 {
    let below = if class == 0 { 0 } else { values[class - 1] };
    let above = values.get(class + 1).copied().unwrap_or(MAX_MINUTES + 1);
    random.pick(&[below, below + 1, above - 1, above, above + 1, 0, 1, MAX_MINUTES, MAX_MINUTES + 1, NONE])
}

/// Before some of the calls an outcome, a mark or a note that they read, or store without reading it, is altered, or the
/// label of a job that is to end; then it is mostly put back, and the call comes again.
fn with_flags_altered(random: &mut Random, history: History) -> History {
    let History { setup, events } = history;
    let mut graph = Graph::lay_out(setup.sizes).expect("the sizes are within their limits");
    let mut altered = Vec::with_capacity(2 * events.len());
    for event in events {
        if let (Event::Call(Call { item, sizes: None, short: None }), true) = (&event, random.once_in(4)) {
            let flags = flags_near(&graph, item);
            if !flags.is_empty() {
                let (table, place, right) = random.pick(&flags);
                let value = random.pick(&[1 - right, 1 - right, 2, 2, 3, 1 << 31, NONE]);
                altered.push(Event::Set { table, place, value });
                altered.push(event.clone());
                // A wrong note that stays turns all later calls of its worker away.
                if !random.once_in(if table == WORKERS { 60 } else { 6 }) {
                    altered.push(Event::Set { table, place, value: right });
                }
            }
        }
        generate::follow(&mut graph, &setup, &event);
        altered.push(event);
    }
    History { setup, events: altered }
}

/// The outcomes, marks and notes that a call comes near to, with what they are: the note of its worker, the mark of the job
/// that it takes, holds or tells, and the outcomes of the jobs that it links to; of a finish run whole also the label of
/// its job, by which it stops before its mark.
fn flags_near(graph: &Graph, item: &Item) -> Vec<(usize, usize, u32)> {
    let worker = match worker_of(item).filter(|worker| (*worker as usize) < graph.workers().len()) {
        Some(worker) => worker as usize,
        None => return Vec::new(),
    };
    let state = &graph.workers()[worker];
    let mark = |job: usize| (JOBS, layout::job_at(job) + job::MARK, u32::from(graph.jobs()[job].spoiled));
    let outcome = |job: usize| {
        let failed = graph.jobs()[job].outcome == Some(Outcome::Failed);
        (JOBS, layout::job_at(job) + job::OUTCOME, u32::from(failed))
    };
    let dependents = |job: usize| graph.jobs()[job].arcs.iter().filter_map(|arc| graph.arcs()[*arc]);
    let found = |names: &[u32]| names.iter().filter_map(|name| graph.find(*name)).collect::<Vec<usize>>();
    let (mut note, mut flags) = (0, Vec::new());
    match (&state.call, item) {
        (Some(Half::Add(add)), Item::Step { .. }) => {
            flags.extend(found(&add.list).into_iter().map(outcome));
            if let AddStage::Linking { job, noted, .. } = add.stage {
                note = u32::from(noted);
                flags.push(mark(job));
            }
        }
        (Some(Half::Finish(finish)), Item::Step { .. }) => {
            let (job, brought) = match *finish {
                Finish::Marking { outcome } => (state.held, outcome),
                Finish::Notifying { job, outcome, .. } => (Some(job), outcome),
            };
            note = u32::from(brought == Outcome::Failed);
            flags.extend(job.into_iter().flat_map(|job| dependents(job).map(mark).chain([outcome(job)])));
        }
        (None, Item::Get { .. }) => flags.extend(graph.heaviest().map(mark)),
        (None, Item::PostFinish { .. }) => flags.extend(state.held.map(mark)),
        (None, Item::Finish { .. }) => {
            if let Some(job) = state.held {
                let label = (JOBS, layout::job_at(job) + job::LABEL, graph.jobs()[job].label as u32);
                flags.extend(dependents(job).map(mark).chain([mark(job), mark(job), label]));
            }
        }
        (None, Item::PostAdd { entry, .. } | Item::Add { entry, .. }) => {
            let Names { count, names } = &entry.prerequisites;
            flags.extend(found(&names[..*count.min(&MAX_NAMES)]).into_iter().map(outcome));
        }
        (None, Item::AddSheet { entries, .. }) => {
            let listed = entries.iter().flat_map(|entry| entry.prerequisites.names);
            flags.extend(found(&listed.collect::<Vec<u32>>()).into_iter().map(outcome));
        }
        _ => {}
    }
    flags.push((WORKERS, layout::worker_at(worker) + worker::NOTE, note));
    flags
}

/// Before some of the calls that use the index words that they may read are altered; then these are mostly put back,
/// and the call comes again.
fn with_index_altered(random: &mut Random, history: History) -> History {
    let History { setup, events } = history;
    let mut graph = Graph::lay_out(setup.sizes).expect("the sizes are within their limits");
    let mut index = Index::default();
    let mut altered = Vec::with_capacity(2 * events.len());
    for event in events {
        let before = index.clone();
        generate::follow(&mut graph, &setup, &event);
        index.follow(&graph);
        if matches!(event, Event::Call(_)) && index.slots() != before.slots() && random.once_in(3) {
            let slot = slot_on_the_way(random, before.slots(), index.slots());
            let words = wrong_index(random, &Beside { graph: &graph, index: &before }, slot);
            altered.extend(words.iter().map(|word| word.set(word.value)));
            altered.push(event.clone());
            if !random.once_in(6) {
                altered.extend(words.iter().map(|word| word.set(word.right)));
            }
        }
        altered.push(event);
    }
    History { setup, events: altered }
}

/// A slot that is written between two states of the index, or one beside, above or below it.
fn slot_on_the_way(random: &mut Random, before: &[u32], after: &[u32]) -> usize {
    let most = before.len().max(after.len());
    let written: Vec<usize> = (0..most).filter(|slot| before.get(*slot) != after.get(*slot)).collect();
    let slot = random.pick(&written);
    match random.below(6) {
        0 => slot.saturating_sub(1) / 2,
        1 => 2 * slot + 1,
        2 => slot + 1,
        3 => 0,
        _ => slot,
    }
}

/// A word, what it is altered to, and what is right.
struct Altered {
    table: usize,
    place: usize,
    value: u32,
    right: u32,
}

impl Altered {
    fn set(&self, value: u32) -> Event {
        Event::Set { table: self.table, place: self.place, value }
    }
}

/// The index before a call, and the graph after it.
struct Beside<'a> {
    graph: &'a Graph,
    index: &'a Index,
}

impl Beside<'_> {
    fn slot(&self, slot: usize, value: u32) -> Altered {
        Altered { table: QUEUE, place: layout::slot_at(slot), value, right: self.index.slots()[slot] }
    }

    fn position(&self, place: u32, value: u32) -> Altered {
        let right = self.index.slots().iter().position(|held| *held == place);
        let right = right.map_or(NONE, |slot| slot as u32);
        Altered { table: QUEUE, place: layout::position_at(place as usize), value, right }
    }

    /// A slot that holds a place, which has the slot as its position.
    fn moved(&self, slot: usize, place: u32) -> Vec<Altered> {
        vec![self.slot(slot, place), self.position(place, slot as u32)]
    }

    fn cell(&self, place: u32, value: u32) -> Altered {
        let right = self.graph.queue()[place as usize] as u32;
        Altered { table: QUEUE, place: layout::cell_at(place as usize), value, right }
    }

    fn class(&self, job: usize, value: u32) -> Altered {
        let right = self.graph.jobs()[job].class;
        Altered { table: JOBS, place: layout::job_at(job) + job::CLASS, value, right }
    }

    /// The label of a job that waits.
    fn label(&self, job: usize, value: u32) -> Altered {
        Altered { table: JOBS, place: layout::job_at(job) + job::LABEL, value, right: 0 }
    }

    /// One of the queue's counters, more or less by 1.
    fn counter(&self, random: &mut Random) -> Altered {
        let (taken, put) = self.index.counters();
        let (place, right) = random.pick(&[(layout::TAKEN, taken as u32), (layout::PUT, put as u32)]);
        Altered { table: QUEUE, place, value: random.pick(&[right + 1, right.wrapping_sub(1)]), right }
    }
}

/// Words that a call may read where it comes to a slot, altered.
fn wrong_index(random: &mut Random, beside: &Beside, slot: usize) -> Vec<Altered> {
    let (graph, slots) = (beside.graph, beside.index.slots());
    let put = beside.index.counters().1;
    let made = graph.jobs().len() as u32;
    // The job that enters, if one does.
    let last_put = graph.queue()[graph.queue().len().min(put + 1) - 1];
    let classes = [16, 17, NONE, 0, 5, 10, 15];
    let slot = slot.min(slots.len().saturating_sub(1));
    let place = match slots.get(slot) {
        Some(place) => *place,
        None => return vec![beside.class(last_put, random.pick(&classes))],
    };
    let job = graph.queue()[place as usize];
    let not_put = [NONE, NONE - 1, put as u32, put as u32 + 1, graph.sizes().jobs];
    match random.below(20) {
        0 | 1 => vec![beside.slot(slot, random.pick(&not_put))],
        2..=5 => one_place_twice(random, beside, slot),
        6 => vec![beside.slot(slot, random.below(put) as u32)],
        7 => beside.moved(slot, random.below(put) as u32),
        8 => {
            let other = random.below(slots.len());
            beside.moved(slot, slots[other]).into_iter().chain(beside.moved(other, place)).collect()
        }
        9..=11 => {
            let other = random.pick(&[slot + 1, slot.wrapping_sub(1), slots.len(), 0, place as usize]) as u32;
            vec![beside.position(place, random.pick(&[NONE, NONE - 1, put as u32, other, other]))]
        }
        12 | 13 => vec![beside.cell(place, random.pick(&[NONE, made, made + 1, 0, made / 2]))],
        14 | 15 => vec![beside.class(job, random.pick(&classes))],
        16 => vec![beside.class(last_put, random.pick(&classes))],
        17 => vec![beside.label(job, random.pick(&[1, 2, 3]))],
        _ => vec![beside.counter(random)],
    }
}

/// A slot with the place of another, whatever their levels; the position of the place is the one or the other.
fn one_place_twice(random: &mut Random, beside: &Beside, slot: usize) -> Vec<Altered> {
    let slots = beside.index.slots();
    let last = slots.len() - 1;
    let next_to_it = if slot % 2 == 0 { slot.saturating_sub(1) } else { slot + 1 };
    let any = random.below(slots.len());
    let other = random.pick(&[0, last, next_to_it, slot.saturating_sub(1) / 2, 2 * slot + 1, 2 * slot + 2, any]);
    let place = slots[other.min(last)];
    if random.once_in(2) {
        vec![beside.slot(slot, place)]
    } else {
        beside.moved(slot, place)
    }
}

/// Before some finishes run whole the job's last arc is followed by its first, and its dependents' counts are the
/// greatest, so that the finish goes round until its steps are used up.
fn with_arcs_in_a_circle(random: &mut Random, history: History) -> History {
    let History { setup, events } = history;
    let mut graph = Graph::lay_out(setup.sizes).expect("the sizes are within their limits");
    let mut altered = Vec::with_capacity(2 * events.len());
    for event in events {
        if random.once_in(2) {
            altered.extend(circle(&graph, &event));
        }
        generate::follow(&mut graph, &setup, &event);
        altered.push(event);
    }
    History { setup, events: altered }
}

/// The damage that makes a circle of the arcs of the job that is finished.
fn circle(graph: &Graph, event: &Event) -> Vec<Event> {
    let worker = match event {
        Event::Call(Call { item: Item::Finish { worker, .. }, sizes: None, short: None }) => *worker as usize,
        _ => return Vec::new(),
    };
    let held = graph.workers().get(worker).and_then(|worker| worker.held);
    let arcs = held.map_or(&[][..], |held| &graph.jobs()[held].arcs);
    let (first, last) = match arcs {
        [first, .., last] => (*first, *last),
        [only] => (*only, *only),
        [] => return Vec::new(),
    };
    let most =
        |job: usize| Event::Set { table: JOBS, place: layout::job_at(job) + job::COUNT, value: MAX_NAMES as u32 };
    let back = Event::Set { table: ARCS, place: layout::arc_at(last) + layout::ARC_NEXT, value: first as u32 };
    arcs.iter().filter_map(|arc| graph.arcs()[*arc]).map(most).chain([back]).collect()
}

/// An altered word, mostly one that is in use early.
fn damage(random: &mut Random, sizes: Sizes) -> Event {
    match random.below(8) {
        0 | 1 => return strayed_list(random),
        2 => {
            let counters =
                [(JOBS, layout::MADE), (ARCS, layout::RESERVED), (QUEUE, layout::TAKEN), (QUEUE, layout::PUT)];
            let (table, place) = random.pick(&counters);
            return Event::Set { table, place, value: damaged_counter(random, sizes) };
        }
        _ => {}
    }
    let near = |random: &mut Random, records: u32| {
        let most = random.pick(&[3, 12, 400]).min(records as usize);
        random.below(most + 1)
    };
    let table = random.pick(&[JOBS, JOBS, ARCS, BUCKETS, QUEUE, WORKERS, WORKERS]);
    let place = match table {
        JOBS if random.once_in(12) => random.below(layout::MADE),
        JOBS if random.once_in(6) => layout::MINUTES + random.below(CLASSES),
        JOBS => layout::job_at(near(random, sizes.jobs)) + random.below(layout::JOB_WORDS),
        ARCS => layout::arc_at(near(random, sizes.arcs)) + random.below(layout::ARC_WORDS),
        BUCKETS => random.below(1 << sizes.bits),
        QUEUE => layout::cell_at(near(random, sizes.jobs)) + random.below(layout::QUEUE_WORDS),
        _ => {
            let fields = if random.once_in(8) { layout::WORKER_WORDS } else { worker::NAMES };
            layout::worker_at(random.below(sizes.workers as usize)) + random.below(fields)
        }
    };
    Event::Set { table, place, value: damaged_word(random, sizes) }
}

/// A list of jobs or arcs that goes on where it should not, so that it may well go in a circle.
fn strayed_list(random: &mut Random) -> Event {
    let (number, value) = (random.below(4), random.below(4) as u32);
    let (table, place) = match random.below(3) {
        0 => (ARCS, layout::arc_at(number) + layout::ARC_NEXT),
        _ => (JOBS, layout::job_at(number) + job::NEXT),
    };
    Event::Set { table, place, value }
}

/// A counter on the edge of its range or off it, or any word.
fn damaged_counter(random: &mut Random, sizes: Sizes) -> u32 {
    let edge = [sizes.jobs, sizes.jobs + 1, sizes.arcs, sizes.arcs + 1, NONE];
    if random.once_in(4) {
        damaged_word(random, sizes)
    } else {
        random.pick(&edge)
    }
}

fn damaged_word(random: &mut Random, sizes: Sizes) -> u32 {
    match random.below(7) {
        0 => random.pick(&[0, 1, 2, 3, 4, 5, 6]),
        1 => random.pick(&[15, 16, 31, 32, 33, 65_535, 65_536]),
        2 => random.pick(&[sizes.jobs - 1, sizes.jobs, sizes.jobs + 1]),
        3 => random.pick(&[sizes.arcs, sizes.arcs + 1, sizes.arcs.saturating_sub(1)]),
        4 => random.pick(&[NONE, NONE, NONE - 1, NONE / 8, NONE / 2, 1 << 31]),
        5 => random.word(),
        _ => random.below(sizes.jobs as usize + 1) as u32,
    }
}
