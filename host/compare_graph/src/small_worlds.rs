//! Every order of two workers' turns over a small graph.

use second_implementation::{
    history::Item,
    sheet::{Entry, Names, MAX_NAMES},
};
use taskgraph::raw::{FAILED, GOOD};

use crate::{
    event::{Event, History},
    tables::Setup,
    world::World,
};

/// A call of a script.
#[derive(Clone, Copy, Debug, PartialEq, Eq)]
pub enum Call {
    Add {
        name: u32,
        list: &'static [u32],
    },
    Get,
    /// A finish of the held job as good, or of name 0 where none is held.
    Finish,
    /// The same as failed.
    Fail,
    /// An add run whole.
    WholeAdd {
        name: u32,
        list: &'static [u32],
    },
    /// A finish as good, run whole.
    WholeFinish,
    /// A finish as failed, run whole.
    WholeFail,
    /// The adds of these names with their lists in one call.
    Sheet(&'static [(u32, &'static [u32])]),
    /// A load of so many values from this on, one above another.
    Load {
        first: u32,
        values: usize,
    },
}

impl Call {
    /// The turns that it takes, as far as they are known beforehand: a post and its steps, with one arc
    /// for a finish.
    pub fn turns(self) -> usize {
        match self {
            Call::Add { list, .. } => 3 + 2 * list.len(),
            Call::Get | Call::WholeAdd { .. } | Call::WholeFinish | Call::WholeFail => 1,
            Call::Sheet(_) | Call::Load { .. } => 1,
            Call::Finish | Call::Fail => 3,
        }
    }
}

/// All scripts of at most so many calls.
pub fn scripts(calls: &[Call], longest: usize) -> Vec<Vec<Call>> {
    let mut all = vec![Vec::new()];
    let mut last = all.clone();
    for _ in 0..longest {
        let longer = |script: &Vec<Call>| calls.iter().map(|call| [&script[..], &[*call]].concat()).collect::<Vec<_>>();
        last = last.iter().flat_map(longer).collect();
        all.extend(last.iter().cloned());
    }
    all
}

/// A graph to start from: the events that lead to it.
pub struct Start {
    pub setup: Setup,
    pub events: Vec<Event>,
}

impl Start {
    pub fn world(&self) -> Result<World, Box<History>> {
        let mut world = World::new(&self.setup).map_err(|_| self.history(&[]))?;
        self.events.iter().try_for_each(|event| world.apply(event)).map_err(|_| self.history(&[]))?;
        Ok(world)
    }

    fn history(&self, trace: &[Event]) -> Box<History> {
        Box::new(History { setup: self.setup.clone(), events: [&self.events, trace].concat() })
    }

    /// Takes both scripts in every order of their turns. The number of orders, or a history that differs.
    pub fn every_order(&self, world: &World, scripts: [&[Call]; 2]) -> Result<u64, Box<History>> {
        self.orders(world.clone(), scripts, &mut Vec::new())
    }

    fn orders(&self, world: World, scripts: [&[Call]; 2], trace: &mut Vec<Event>) -> Result<u64, Box<History>> {
        let mut rest = [scripts; 2];
        let turns = [turn(&world, 0, &mut rest[0][0]), turn(&world, 1, &mut rest[1][1])];
        // The world is copied only where both workers have a turn.
        match turns {
            [Some(first), Some(second)] => {
                let orders = self.orders_after(world.clone(), first, rest[0], trace)?;
                Ok(orders + self.orders_after(world, second, rest[1], trace)?)
            }
            [Some(only), None] => self.orders_after(world, only, rest[0], trace),
            [None, Some(only)] => self.orders_after(world, only, rest[1], trace),
            [None, None] => Ok(1),
        }
    }

    fn orders_after(
        &self,
        mut world: World,
        item: Item,
        rest: [&[Call]; 2],
        trace: &mut Vec<Event>,
    ) -> Result<u64, Box<History>> {
        trace.push(item.into());
        world.apply(&trace[trace.len() - 1]).map_err(|_| self.history(trace))?;
        let orders = self.orders(world, rest, trace)?;
        trace.pop();
        Ok(orders)
    }
}

/// The next turn of a worker: a step of its call half done, or its script's next call.
fn turn(world: &World, worker: u32, script: &mut &[Call]) -> Option<Item> {
    let state = &world.graph().workers()[worker as usize];
    if state.call.is_some() {
        return Some(Item::Step { worker });
    }
    let (call, rest) = script.split_first()?;
    *script = rest;
    let held = state.held.map_or(0, |job| world.graph().jobs()[job].name);
    Some(match *call {
        Call::Add { name, list } => Item::PostAdd { worker, entry: entry(name, list) },
        Call::Get => Item::Get { worker },
        Call::Finish => Item::PostFinish { worker, name: held, outcome: GOOD },
        Call::Fail => Item::PostFinish { worker, name: held, outcome: FAILED },
        Call::WholeAdd { name, list } => Item::Add { worker, entry: entry(name, list) },
        Call::WholeFinish => Item::Finish { worker, name: held, outcome: GOOD },
        Call::WholeFail => Item::Finish { worker, name: held, outcome: FAILED },
        Call::Sheet(jobs) => {
            Item::AddSheet { worker, entries: jobs.iter().map(|(name, list)| entry(*name, list)).collect(), stray: 0 }
        }
        Call::Load { first, values } => Item::Load { minutes: (first..).take(values).collect() },
    })
}

/// An entry of grower 0: job 4 is heavier than the others and job 3 lighter, which are equal.
pub fn entry(name: u32, list: &[u32]) -> Entry {
    let mut names = [0; MAX_NAMES];
    names[..list.len()].copy_from_slice(list);
    let class = match name {
        3 => 0,
        4 => 15,
        _ => 7,
    };
    Entry { name, prerequisites: Names { count: list.len(), names }, class, grower: 0 }
}
