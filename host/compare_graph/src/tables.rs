//! The five tables that are lent to the library, with words of any kind in them and guards around them.

use compare_sheets::random::Random;
use second_implementation::graph::Sizes;
use taskgraph::raw;

use crate::layout::words_needed;

pub const NAMES: [&str; 5] = ["jobs", "arcs", "buckets", "queue", "workers"];

pub const JOBS: usize = 0;
pub const ARCS: usize = 1;
pub const BUCKETS: usize = 2;
pub const QUEUE: usize = 3;
pub const WORKERS: usize = 4;

/// What a guard word holds.
const GUARD: u32 = 0x5a5a_0ff5;

/// The tables of a history before their first laying out.
#[derive(Clone, Debug, PartialEq, Eq)]
pub struct Setup {
    /// The sizes first laid out.
    pub sizes: Sizes,
    /// Words that each table has more than these sizes need.
    pub slack: [usize; 5],
    /// What the words are before: 0 for zeros, else the seed of random words.
    pub fill: u64,
    /// Guard words before and after each table, which are not lent.
    pub guard: usize,
}

#[derive(Clone, Debug, PartialEq, Eq)]
pub struct Tables {
    all: [Vec<u32>; 5],
    guard: usize,
}

impl Tables {
    pub fn new(setup: &Setup) -> Tables {
        let need = words_needed(setup.sizes);
        let mut random = Random::new(setup.fill, "the words before");
        let mut all: [Vec<u32>; 5] = Default::default();
        for (table, words) in all.iter_mut().enumerate() {
            let len = need[table] + setup.slack[table];
            // In one piece of just this size, so that a memory checker sees its ends.
            *words = vec![GUARD; len + 2 * setup.guard];
            let lent = &mut words[setup.guard..setup.guard + len];
            lent.fill_with(|| if setup.fill == 0 { 0 } else { random.word() });
        }
        Tables { all, guard: setup.guard }
    }

    /// The words of a table that are lent.
    pub fn words(&self, table: usize) -> &[u32] {
        &self.all[table][self.guard..self.all[table].len() - self.guard]
    }

    pub fn set(&mut self, table: usize, place: usize, value: u32) {
        if place < self.words(table).len() {
            self.all[table][self.guard + place] = value;
        }
    }

    pub fn lens(&self) -> [usize; 5] {
        [JOBS, ARCS, BUCKETS, QUEUE, WORKERS].map(|table| self.words(table).len())
    }

    /// The lengths with one table cut to a number of words.
    pub fn cut_lens(&self, short: Option<(usize, usize)>) -> [usize; 5] {
        let mut lens = self.lens();
        if let Some((table, len)) = short {
            lens[table] = lens[table].min(len);
        }
        lens
    }

    /// The tables as they are lent, one of them perhaps cut short.
    pub fn lent(&mut self, short: Option<(usize, usize)>) -> raw::Tables<'_> {
        let lens = self.cut_lens(short);
        let guard = self.guard;
        let [jobs, arcs, buckets, queue, workers] = &mut self.all;
        raw::Tables {
            jobs: &mut jobs[guard..guard + lens[JOBS]],
            arcs: &mut arcs[guard..guard + lens[ARCS]],
            buckets: &mut buckets[guard..guard + lens[BUCKETS]],
            queue: &mut queue[guard..guard + lens[QUEUE]],
            workers: &mut workers[guard..guard + lens[WORKERS]],
        }
    }

    /// The tables as they are lent for reading, one of them perhaps cut short.
    pub fn read(&self, short: Option<(usize, usize)>) -> [&[u32]; 5] {
        let lens = self.cut_lens(short);
        [JOBS, ARCS, BUCKETS, QUEUE, WORKERS].map(|table| &self.words(table)[..lens[table]])
    }

    /// The first word, guards included, in which two states of the tables differ.
    pub fn difference(before: &Tables, after: &Tables) -> Option<String> {
        (0..5).find_map(|table| {
            let guard = before.guard as isize;
            let (before, after) = (&before.all[table], &after.all[table]);
            if before == after {
                return None;
            }
            let place = before.iter().zip(after).position(|(one, other)| one != other)?;
            let (was, is) = (before[place], after[place]);
            Some(format!("table {}, word {}: it was {was} and is {is}", NAMES[table], place as isize - guard))
        })
    }

    /// The places of a table in which two states differ, guards aside.
    pub fn changed<'a>(before: &'a Tables, after: &'a Tables, table: usize) -> impl Iterator<Item = usize> + 'a {
        let pairs = before.words(table).iter().zip(after.words(table));
        pairs.enumerate().filter(|(_, (one, other))| one != other).map(|(place, _)| place)
    }

    /// Says where a guard word was changed.
    pub fn broken_guard(&self) -> Option<String> {
        (0..5).find_map(|table| {
            let all = &self.all[table];
            let (front, back) = (&all[..self.guard], &all[all.len() - self.guard..]);
            let broken = front.iter().chain(back).any(|word| *word != GUARD);
            broken.then(|| format!("a word outside table {} was changed", NAMES[table]))
        })
    }
}
