//! Building and draining a graph by calls: of the proved library, or of the same rules in unproved Rust.

use taskgraph::raw::{kind, Answer, Entry, SheetAdded, Sizes, Tables, ENTRY_WORDS, GOOD, MAX_ENTRIES};

use crate::{shapes::Shape, unproved};

pub trait Calls {
    const NAME: &'static str;

    fn lay_out(sizes: Sizes, tables: &mut Tables) -> Answer;
    fn load_minutes(sizes: Sizes, tables: &mut Tables, minutes: &[u32]) -> Answer;
    fn post_add(sizes: Sizes, tables: &mut Tables, worker: u32, entry: Entry) -> Answer;
    fn post_finish(sizes: Sizes, tables: &mut Tables, worker: u32, name: u32, outcome: u32) -> Answer;
    fn step(sizes: Sizes, tables: &mut Tables, worker: u32) -> Answer;
    fn get(sizes: Sizes, tables: &mut Tables, worker: u32) -> Answer;
    fn add(sizes: Sizes, tables: &mut Tables, worker: u32, entry: Entry) -> Answer;
    fn finish(sizes: Sizes, tables: &mut Tables, worker: u32, name: u32, outcome: u32) -> Answer;
    fn add_sheet(sizes: Sizes, tables: &mut Tables, worker: u32, rows: &[u32]) -> SheetAdded;
}

/// A type whose calls are the functions of a module, of the unproved ones with or without the index.
macro_rules! calls {
    ($type:ident, $name:literal, $($module:ident)::+ $(, $indexed:tt)?) => {
        pub struct $type;

        impl Calls for $type {
            const NAME: &'static str = $name;

            fn lay_out(sizes: Sizes, tables: &mut Tables) -> Answer {
                $($module::)+lay_out$(::<$indexed>)?(sizes, tables)
            }

            fn load_minutes(sizes: Sizes, tables: &mut Tables, minutes: &[u32]) -> Answer {
                $($module::)+load_minutes$(::<$indexed>)?(sizes, tables, minutes)
            }

            fn post_add(sizes: Sizes, tables: &mut Tables, worker: u32, entry: Entry) -> Answer {
                $($module::)+post_add$(::<$indexed>)?(sizes, tables, worker, entry)
            }

            fn post_finish(sizes: Sizes, tables: &mut Tables, worker: u32, name: u32, outcome: u32) -> Answer {
                $($module::)+post_finish$(::<$indexed>)?(sizes, tables, worker, name, outcome)
            }

            fn step(sizes: Sizes, tables: &mut Tables, worker: u32) -> Answer {
                $($module::)+step$(::<$indexed>)?(sizes, tables, worker)
            }

            fn get(sizes: Sizes, tables: &mut Tables, worker: u32) -> Answer {
                $($module::)+get$(::<$indexed>)?(sizes, tables, worker)
            }

            fn add(sizes: Sizes, tables: &mut Tables, worker: u32, entry: Entry) -> Answer {
                $($module::)+add$(::<$indexed>)?(sizes, tables, worker, entry)
            }

            fn finish(sizes: Sizes, tables: &mut Tables, worker: u32, name: u32, outcome: u32) -> Answer {
                $($module::)+finish$(::<$indexed>)?(sizes, tables, worker, name, outcome)
            }

            fn add_sheet(sizes: Sizes, tables: &mut Tables, worker: u32, rows: &[u32]) -> SheetAdded {
                $($module::)+add_sheet$(::<$indexed>)?(sizes, tables, worker, rows)
            }
        }
    };
}

calls!(Proved, "library", taskgraph::raw);
calls!(Unproved, "unproved Rust", unproved, true);
calls!(FirstIn, "first in", unproved, false);

/// The words of five tables.
#[derive(Clone)]
pub struct Arena {
    words: [Vec<u32>; 5],
}

impl Arena {
    pub fn new(sizes: Sizes) -> Arena {
        let need = unproved::words_needed::<true>(sizes).expect("the sizes are within their limits");
        Arena { words: need.map(|len| vec![0; len]) }
    }

    /// Takes the words of another of the same sizes.
    pub fn restore(&mut self, from: &Arena) {
        self.words.iter_mut().zip(&from.words).for_each(|(words, from)| words.copy_from_slice(from));
    }

    pub fn lent(&mut self) -> Tables<'_> {
        let [jobs, arcs, buckets, queue, workers] = &mut self.words;
        Tables { jobs, arcs, buckets, queue, workers }
    }
}

/// Steps worker 0 to the end of its call, and gives the steps that it took.
fn run_whole<C: Calls>(sizes: Sizes, tables: &mut Tables) -> usize {
    let mut steps = 1;
    loop {
        let answer = C::step(sizes, tables, 0);
        if answer.kind != kind::GOING_ON {
            assert_eq!(answer.kind, kind::ENDED);
            return steps;
        }
        steps += 1;
    }
}

/// How a graph is built and drained.
#[derive(Clone, Copy, Debug, PartialEq, Eq)]
pub enum Manner {
    /// Adds and finishes are posted and stepped.
    Single,
    /// Adds and finishes are run whole.
    Whole,
    /// Jobs are added by sheets, as many in one as it takes; finishes are run whole.
    Sheets,
}

impl Manner {
    pub const ALL: [Manner; 3] = [Manner::Single, Manner::Whole, Manner::Sheets];

    pub fn name(self) -> &'static str {
        match self {
            Manner::Single => "single calls",
            Manner::Whole => "whole calls",
            Manner::Sheets => "sheets",
        }
    }
}

/// Lays out a graph and adds all jobs of a shape; the number of calls.
pub fn build<C: Calls>(manner: Manner, sizes: Sizes, tables: &mut Tables, shape: &Shape) -> usize {
    assert_eq!(C::lay_out(sizes, tables).kind, kind::LAID_OUT);
    1 + match manner {
        Manner::Single => add_by_steps::<C>(sizes, tables, shape),
        Manner::Whole => add_whole::<C>(sizes, tables, shape),
        Manner::Sheets => add_rows::<C>(sizes, tables, &shape.rows),
    }
}

fn add_by_steps<C: Calls>(sizes: Sizes, tables: &mut Tables, shape: &Shape) -> usize {
    let mut calls = 0;
    for entry in &shape.entries {
        assert_eq!(C::post_add(sizes, tables, 0, *entry).kind, kind::POSTED);
        calls += 1 + run_whole::<C>(sizes, tables);
    }
    calls
}

fn add_whole<C: Calls>(sizes: Sizes, tables: &mut Tables, shape: &Shape) -> usize {
    for entry in &shape.entries {
        assert_eq!(C::add(sizes, tables, 0, *entry).kind, kind::ENDED);
    }
    shape.entries.len()
}

/// Adds the jobs of all rows, as many in one call as it takes; the number of calls.
pub fn add_rows<C: Calls>(sizes: Sizes, tables: &mut Tables, rows: &[u32]) -> usize {
    let sheets = rows.chunks(MAX_ENTRIES * ENTRY_WORDS);
    let calls = sheets.len();
    for rows in sheets {
        let added = C::add_sheet(sizes, tables, 0, rows);
        assert!(added.number == 0 && added.numbers == [0; MAX_ENTRIES]);
    }
    calls
}

/// Takes and finishes jobs until none is ready; the numbers of jobs and calls.
pub fn drain<C: Calls>(manner: Manner, sizes: Sizes, tables: &mut Tables) -> (usize, usize) {
    let (mut jobs, mut calls) = (0, 1);
    loop {
        let answer = C::get(sizes, tables, 0);
        if answer.kind != kind::HANDED_OUT {
            assert_eq!(answer.kind, kind::NONE_READY);
            return (jobs, calls);
        }
        jobs += 1;
        calls += 1 + finish_job::<C>(manner, sizes, tables, answer.name);
    }
}

/// Finishes the held job; the number of calls.
fn finish_job<C: Calls>(manner: Manner, sizes: Sizes, tables: &mut Tables, name: u32) -> usize {
    if manner == Manner::Single {
        assert_eq!(C::post_finish(sizes, tables, 0, name, GOOD).kind, kind::POSTED);
        1 + run_whole::<C>(sizes, tables)
    } else {
        assert_eq!(C::finish(sizes, tables, 0, name, GOOD).kind, kind::ENDED);
        1
    }
}
