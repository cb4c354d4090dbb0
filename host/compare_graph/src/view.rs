//! What the words have of that which the plain book keeps.

use second_implementation::{
    book::{JobView, View},
    graph::Sizes,
    history::Shown,
};

use crate::{
    layout::{cell_at, job, job_at, slot_at, stored_minutes, worker, worker_at, MADE, NONE, PUT, TAKEN},
    tables::{Tables, JOBS, QUEUE, WORKERS},
};

/// How many jobs were made, by the words.
pub fn made(tables: &Tables, sizes: Sizes) -> usize {
    tables.words(JOBS)[MADE].min(sizes.jobs) as usize
}

/// The label of a job, by the words.
pub fn label(tables: &Tables, number: usize) -> u32 {
    tables.words(JOBS)[job_at(number) + job::LABEL]
}

/// Whether each job has ended, as what, and its mark, by the words.
pub fn shown(tables: &Tables, sizes: Sizes) -> Vec<Shown> {
    let jobs = tables.words(JOBS);
    let of_job = |number: usize| Shown {
        finished: jobs[job_at(number) + job::LABEL] == 2,
        failed: jobs[job_at(number) + job::OUTCOME] == 1,
        spoiled: jobs[job_at(number) + job::MARK] == 1,
    };
    (0..made(tables, sizes)).map(of_job).collect()
}

/// The minutes of a job, by the words.
pub fn minutes(tables: &Tables, number: usize) -> u32 {
    let jobs = tables.words(JOBS);
    let class = jobs[job_at(number) + job::CLASS] as usize;
    stored_minutes(jobs).get(class).copied().unwrap_or(0)
}

/// The jobs with a place in the queue, in the order of their entry, by the words.
pub fn queue(tables: &Tables) -> impl Iterator<Item = usize> + '_ {
    let words = tables.words(QUEUE);
    let cells = (0..words[PUT] as usize).filter_map(|place| words.get(cell_at(place)));
    cells.filter(|cell| **cell != NONE).map(|cell| *cell as usize)
}

/// The jobs in the index, by the words: in the cells of the places that the filled slots hold.
pub fn indexed(tables: &Tables) -> impl Iterator<Item = usize> + '_ {
    let words = tables.words(QUEUE);
    let filled = (words[PUT] as usize).saturating_sub(words[TAKEN] as usize);
    let places = (0..filled).filter_map(|slot| words.get(slot_at(slot)));
    places.filter_map(|place| words.get(cell_at(*place as usize))).map(|cell| *cell as usize)
}

/// What the words have of that which the book keeps.
pub fn view(tables: &Tables, sizes: Sizes) -> View {
    let jobs = tables.words(JOBS);
    let made = made(tables, sizes);
    let mut waits = vec![false; made];
    queue(tables).filter(|job| *job < made).for_each(|job| waits[job] = true);
    let job = |number: usize| {
        let record = &jobs[job_at(number)..job_at(number + 1)];
        JobView {
            name: record[job::NAME],
            class: record[job::CLASS],
            grower: record[job::GROWER],
            label: record[job::LABEL],
            count: record[job::COUNT],
            waits: waits[number],
            failed: record[job::OUTCOME] == 1,
            spoiled: record[job::MARK] == 1,
        }
    };
    let hold = |number: usize| {
        let held = tables.words(WORKERS)[worker_at(number) + worker::HELD];
        (held != NONE).then_some(held as usize)
    };
    View { jobs: (0..made).map(job).collect(), holds: (0..sizes.workers as usize).map(hold).collect() }
}
