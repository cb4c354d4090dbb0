//! Random histories: posts, steps, gets, calls run whole and sheets by all workers, and loads, in random orders, refused
//! ones included. The second implementation runs along, so that most items are ones that a worker could sensibly try.

use compare_sheets::{inputs, minute_values, random::Random};
use second_implementation::{
    graph::{Call as Half, Graph, Job, Sizes, MAX_ARCS, MAX_BITS, MAX_ENTRIES, MAX_JOBS, MAX_WORKERS},
    history::Item,
    sheet::{Entry, Names, MAX_NAMES, ROW_WORDS},
};
use taskgraph::raw::{FAILED, GOOD};

use crate::{
    event::{Call, Event, History},
    layout,
    tables::Setup,
    world::call_second,
};

/// How a history is made.
struct Manner {
    /// The names that jobs get.
    names: Vec<u32>,
    /// The classes that jobs get: all, or a few, so that many are equal.
    classes: Vec<u32>,
    /// The longest lists, for most adds.
    longest: usize,
    /// One event in so many is likely to be refused.
    mischief: usize,
    /// One event in so many is of another worker.
    switch: usize,
    /// Of ten choices between adding and working, how many add.
    adding: usize,
    /// Of ten adds and finishes, how many are run whole.
    whole: usize,
    /// Whether adds come first, and gets later, so that many jobs wait at once.
    deep: bool,
    /// Before the first job enters, of ten events how many are loads.
    loading: usize,
    /// Of ten finishes of jobs that are not spoiled, how many are failed.
    failing: usize,
}

/// A history over a graph of any size, mostly small.
pub fn history(random: &mut Random) -> History {
    let (jobs, workers) = match random.below(80) {
        0 => return deep_history(random),
        1..=2 => (300, 16),
        3..=17 => (40, 16),
        18..=39 => (10, 4),
        _ => (5, 3),
    };
    let jobs = 1 + random.below(jobs) as u32;
    let most_arcs = jobs * random.pick(&[0, 1, 1, 2, 2, 8, 8]);
    let arcs = random.below(most_arcs as usize + 1) as u32;
    let most_bits = random.pick(&[2, 3, 8]);
    let bits = 1 + random.below(most_bits) as u32;
    let sizes = Sizes { jobs, arcs: arcs.min(MAX_ARCS), bits, workers: 1 + random.below(workers) as u32 };
    let events = 5 + random.below(40 + 20 * jobs as usize);
    let manner = Manner::new(random, sizes);
    of_manner(random, manner, sizes, events.min(2_500))
}

/// A history with hundreds of waiting jobs.
fn deep_history(random: &mut Random) -> History {
    let jobs = 200 + random.below(400) as u32;
    let sizes = Sizes { jobs, arcs: jobs, bits: 1 + random.below(8) as u32, workers: 1 + random.below(4) as u32 };
    let manner = Manner::deep(random, sizes);
    of_manner(random, manner, sizes, 4 * jobs as usize)
}

/// A history over 4,096 jobs.
pub fn large_history(random: &mut Random, events: usize, deep: bool) -> History {
    let arcs = if random.once_in(2) { MAX_ARCS } else { random.below(MAX_ARCS as usize + 1) as u32 };
    let sizes = Sizes { jobs: MAX_JOBS, arcs, bits: 1 + random.below(8) as u32, workers: MAX_WORKERS };
    let manner = if deep { Manner::deep(random, sizes) } else { Manner::new(random, sizes) };
    of_manner(random, manner, sizes, events)
}

fn of_manner(random: &mut Random, mut manner: Manner, sizes: Sizes, events: usize) -> History {
    let setup = setup(random, sizes);
    let mut graph = Graph::lay_out(sizes).expect("the sizes are within their limits");
    let mut worker = 0;
    let mut list = Vec::with_capacity(events);
    while list.len() < events {
        if manner.deep {
            manner.adding = if list.len() < events / 3 { 9 } else { 1 };
        } else if random.once_in(60) {
            manner.adding = random.pick(&[1, 5, 9]);
        }
        if random.once_in(manner.switch) {
            worker = random.below(graph.sizes().workers as usize) as u32;
        }
        let event = manner.event(random, &graph, worker % graph.sizes().workers);
        follow(&mut graph, &setup, &event);
        list.push(event);
    }
    History { setup, events: list }
}

pub fn setup(random: &mut Random, sizes: Sizes) -> Setup {
    let mut slack = [0; 5];
    if random.once_in(3) {
        slack.fill_with(|| random.below(12));
    }
    let fill = if random.once_in(4) { 0 } else { 1 + random.number() % 1_000 };
    Setup { sizes, slack, fill, guard: random.pick(&[0, 0, 8]) }
}

/// Lets the second implementation's graph do what the event does.
pub fn follow(graph: &mut Graph, setup: &Setup, event: &Event) {
    match event {
        Event::LayOut(sizes) => {
            let mut lens = layout::words_needed(setup.sizes);
            lens.iter_mut().zip(setup.slack).for_each(|(len, slack)| *len += slack);
            if let Some(fresh) = Graph::lay_out(*sizes).ok().filter(|_| layout::suffice(lens, *sizes)) {
                *graph = fresh;
            }
        }
        Event::Call(Call { item, sizes: None, short: None }) => {
            // Refused or not, the graph is as it should be afterwards.
            let _ = call_second(graph, graph.sizes(), item);
        }
        _ => {}
    }
}

impl Manner {
    fn new(random: &mut Random, sizes: Sizes) -> Manner {
        let count = 2 + sizes.jobs as usize + sizes.jobs as usize / 3;
        let names = match random.below(3) {
            0 => (0..count as u32).collect(),
            1 => (0..count).map(|_| inputs::word(random)).collect(),
            // Many of the first bucket.
            _ => (0..count as u32).map(|name| name.wrapping_mul(1 << random.pick(&[1, 29]))).collect(),
        };
        let classes = match random.pick(&[1, 2, 4, 16, 16]) {
            16 => (0..16).collect(),
            few => (0..few).map(|_| random.below(16) as u32).collect(),
        };
        Manner {
            names,
            classes,
            longest: random.pick(&[0, 1, 2, 4, 8, 32]),
            mischief: random.pick(&[4, 10, 20, 100]),
            switch: random.pick(&[1, 1, 2, 5, 20]),
            adding: random.pick(&[5, 9]),
            whole: random.pick(&[0, 2, 5, 9]),
            deep: false,
            loading: random.pick(&[0, 1, 5]),
            failing: random.pick(&[0, 1, 1, 3, 8]),
        }
    }

    fn deep(random: &mut Random, sizes: Sizes) -> Manner {
        let longest = random.pick(&[0, 0, 1]);
        Manner { longest, mischief: 400, whole: 9, deep: true, ..Manner::new(random, sizes) }
    }

    fn event(&self, random: &mut Random, graph: &Graph, worker: u32) -> Event {
        if random.once_in(self.mischief) {
            return self.mischief(random, graph, worker);
        }
        if graph.jobs().is_empty() && random.below(10) < self.loading {
            return load(random).into();
        }
        let state = &graph.workers()[worker as usize];
        let item = match (&state.call, state.held) {
            (Some(_), _) => Item::Step { worker },
            _ if random.below(10) < self.adding => self.add(random, graph, worker),
            (None, Some(job)) => self.finish(random, worker, &graph.jobs()[job]),
            (None, None) => Item::Get { worker },
        };
        item.into()
    }

    /// An add by steps, one run whole, or a sheet.
    fn add(&self, random: &mut Random, graph: &Graph, worker: u32) -> Item {
        if random.below(10) >= self.whole {
            return Item::PostAdd { worker, entry: self.entry(random, graph) };
        }
        if random.once_in(3) {
            return self.sheet(random, graph, worker);
        }
        Item::Add { worker, entry: self.entry(random, graph) }
    }

    /// A finish of a held job; one that is spoiled is mostly failed, and now and then good, which is refused.
    fn finish(&self, random: &mut Random, worker: u32, job: &Job) -> Item {
        let fails = if job.spoiled { !random.once_in(4) } else { random.below(10) < self.failing };
        let (name, outcome) = (job.name, if fails { failed(random) } else { GOOD });
        if random.below(10) < self.whole {
            Item::Finish { worker, name, outcome }
        } else {
            Item::PostFinish { worker, name, outcome }
        }
    }

    /// A sheet, mostly a short one; its entries may list those before them, and some are refused.
    fn sheet(&self, random: &mut Random, graph: &Graph, worker: u32) -> Item {
        let count = match random.below(12) {
            0 => random.pick(&[MAX_ENTRIES - 1, MAX_ENTRIES, MAX_ENTRIES + 1, MAX_ENTRIES + 2]),
            1 => random.below(MAX_ENTRIES),
            _ => random.below(7),
        };
        let mut entries: Vec<Entry> = Vec::with_capacity(count);
        for _ in 0..count {
            let mut entry = if random.once_in(8) { self.wrong_entry(random, graph) } else { self.entry(random, graph) };
            if !entries.is_empty() && random.once_in(2) {
                list_also(&mut entry, entries[random.below(entries.len())].name);
            }
            entries.push(entry);
        }
        let stray = if random.once_in(30) { 1 + random.below(ROW_WORDS - 1) } else { 0 };
        Item::AddSheet { worker, entries, stray }
    }

    /// An add that may well be accepted.
    fn entry(&self, random: &mut Random, graph: &Graph) -> Entry {
        let mut name = random.pick(&self.names);
        for _ in 0..4 {
            if graph.find(name).is_none() {
                break;
            }
            name = random.pick(&self.names);
        }
        let list = if random.once_in(25) { longest_list(graph, name) } else { self.list(random, graph, name) };
        let mut names = [0; MAX_NAMES];
        names[..list.len()].copy_from_slice(&list);
        let class = random.pick(&self.classes);
        let grower = if random.once_in(2) { 0 } else { random.below(65_536) as u32 };
        Entry { name, prerequisites: Names { count: list.len(), names }, class, grower }
    }

    /// A list without its own job's name or a name twice.
    fn list(&self, random: &mut Random, graph: &Graph, name: u32) -> Vec<u32> {
        let mut list = Vec::new();
        for _ in 0..random.below(self.longest + 1) {
            let listed = self.listed_name(random, graph);
            if listed != name && !list.contains(&listed) {
                list.push(listed);
            }
        }
        list
    }

    /// A name for a list: mostly of a job, of late ones more often; else one that may be entering.
    fn listed_name(&self, random: &mut Random, graph: &Graph) -> u32 {
        let jobs = graph.jobs();
        if jobs.is_empty() || random.once_in(40) {
            return random.pick(&self.names);
        }
        if random.once_in(8) {
            let worker = &graph.workers()[random.below(graph.workers().len())];
            if let Some(Half::Add(add)) = &worker.call {
                return add.name;
            }
        }
        let from = if random.once_in(2) { jobs.len().saturating_sub(6) } else { 0 };
        jobs[from + random.below(jobs.len() - from)].name
    }

    /// An event that is likely to be refused.
    fn mischief(&self, random: &mut Random, graph: &Graph, worker: u32) -> Event {
        match random.below(20) {
            0 => Event::LayOut(if random.once_in(2) { graph.sizes() } else { other_sizes(random, graph.sizes()) }),
            1..=3 => {
                let item = self.any_item(random, graph, worker);
                Event::Call(Call { item, sizes: Some(other_sizes(random, graph.sizes())), short: None })
            }
            4..=5 => {
                let item = self.any_item(random, graph, worker);
                Event::Call(Call { item, sizes: None, short: Some(short(random, graph.sizes())) })
            }
            6 => {
                let beyond = random.pick(&[graph.sizes().workers, graph.sizes().workers + 1, 16, u32::MAX]);
                self.any_item(random, graph, beyond).into()
            }
            7..=8 => Item::PostAdd { worker, entry: self.wrong_entry(random, graph) }.into(),
            9..=10 => Item::Add { worker, entry: self.wrong_entry(random, graph) }.into(),
            11..=12 => load(random).into(),
            _ => self.any_item(random, graph, worker).into(),
        }
    }

    /// Any item at all, whatever the worker is at; half the finishes are of the job that it holds, if it holds one.
    fn any_item(&self, random: &mut Random, graph: &Graph, worker: u32) -> Item {
        let held = graph.workers().get(worker as usize).and_then(|state| state.held);
        let held = held.filter(|_| random.once_in(2)).map(|job| graph.jobs()[job].name);
        match random.below(8) {
            0 => Item::PostAdd { worker, entry: self.entry(random, graph) },
            1 => {
                let name = held.unwrap_or_else(|| random.pick(&self.names));
                Item::PostFinish { worker, name, outcome: any_outcome(random) }
            }
            2 => Item::Step { worker },
            3 => Item::Add { worker, entry: self.entry(random, graph) },
            4 => {
                let name = held.unwrap_or_else(|| random.pick(&self.names));
                Item::Finish { worker, name, outcome: any_outcome(random) }
            }
            5 => self.sheet(random, graph, worker),
            6 => load(random),
            _ => Item::Get { worker },
        }
    }

    /// An add with wrong arguments, or with words past its list that do not matter.
    fn wrong_entry(&self, random: &mut Random, graph: &Graph) -> Entry {
        let mut entry = self.entry(random, graph);
        let count = entry.prerequisites.count;
        let names = &mut entry.prerequisites.names;
        match random.below(7) {
            0 => entry.class = random.pick(&[16, 17, 255, 256, u32::MAX]),
            1 => entry.grower = random.pick(&[65_536, 65_537, 1 << 31, u32::MAX]),
            2 => entry.prerequisites.count = random.pick(&[33, 34, 64, 1 << 30, u32::MAX as usize]),
            3 if count > 0 => names[random.below(count)] = entry.name,
            4 if count > 1 => names[random.below(count)] = names[random.below(count)],
            5 => entry.name = graph.jobs().last().map_or(entry.name, |job| job.name),
            _ => names[count..].fill(random.pick(&[entry.name, 1, u32::MAX])),
        }
        entry
    }
}

/// The number of a failed outcome, which is any but 0.
fn failed(random: &mut Random) -> u32 {
    if random.once_in(8) {
        random.pick(&[2, 3, 1 << 31, u32::MAX])
    } else {
        FAILED
    }
}

fn any_outcome(random: &mut Random) -> u32 {
    if random.once_in(2) {
        GOOD
    } else {
        failed(random)
    }
}

/// A load, a third of them of wrong values.
pub fn load(random: &mut Random) -> Item {
    let wrong = random.once_in(3);
    Item::Load { minutes: if wrong { minute_values::wrong(random) } else { minute_values::right(random) } }
}

/// One name more at the end of a list, where it may stand there.
fn list_also(entry: &mut Entry, name: u32) {
    let Names { count, names } = &mut entry.prerequisites;
    if *count < MAX_NAMES && name != entry.name && !names[..*count].contains(&name) {
        names[*count] = name;
        *count += 1;
    }
}

/// A list of the greatest length: the last jobs, then names of no job.
fn longest_list(graph: &Graph, name: u32) -> Vec<u32> {
    let jobs = graph.jobs().iter().rev().map(|job| job.name);
    let unknown = (0..).filter(|unknown| graph.find(*unknown).is_none());
    jobs.chain(unknown).filter(|listed| *listed != name).take(MAX_NAMES).collect()
}

/// Sizes that are not those laid out, on and off their limits.
pub fn other_sizes(random: &mut Random, sizes: Sizes) -> Sizes {
    let mut other = sizes;
    let (size, limit) = match random.below(4) {
        0 => (&mut other.jobs, MAX_JOBS),
        1 => (&mut other.arcs, MAX_ARCS),
        2 => (&mut other.bits, MAX_BITS),
        _ => (&mut other.workers, MAX_WORKERS),
    };
    let choices = [*size + 1, size.wrapping_sub(1), 0, 1, limit, limit + 1, 31, 32, 33, 64, 1 << 29, 1 << 31, u32::MAX];
    *size = random.pick(&choices);
    other
}

/// A table and a number of words that does not suffice, or just does.
pub fn short(random: &mut Random, sizes: Sizes) -> (usize, usize) {
    let table = random.below(5);
    let need = layout::words_needed(sizes)[table];
    let len = random.pick(&[need, need.saturating_sub(1), need.saturating_sub(1), need / 2, 4, 1, 0]);
    (table, len)
}
