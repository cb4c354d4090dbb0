//! What a graph of the second implementation, with the index beside its queue, looks like in words.

use second_implementation::{
    bucket::bucket,
    graph::{Add, AddStage, Call, Finish, Graph, Outcome, Sizes, Worker},
};

use crate::{
    index::Index,
    layout::{
        arc_at, cell_at, idle_worker, job_at, phase, position_at, slot_at, worker, worker_at, ARCS_HEADER, JOBS_HEADER,
        JOB_WORDS, NONE, PUT, QUEUE_HEADER, TAKEN, WORKER_WORDS,
    },
    tables::{Tables, ARCS, BUCKETS, JOBS, QUEUE, WORKERS},
};

fn place(number: Option<usize>) -> u32 {
    number.map_or(NONE, |number| number as u32)
}

/// 1 for failed; 0 for good, and for a job that has not ended.
fn outcome_word(outcome: Option<Outcome>) -> u32 {
    u32::from(outcome == Some(Outcome::Failed))
}

/// The first way in which the words do not stand for the graph and its index.
pub fn difference(graph: &Graph, index: &Index, tables: &Tables) -> Option<String> {
    wrong_jobs(graph, tables.words(JOBS))
        .or_else(|| wrong_arcs(graph, tables.words(ARCS)))
        .or_else(|| wrong_buckets(graph, tables.words(BUCKETS)))
        .or_else(|| wrong_queue(graph, index, tables.words(QUEUE)))
        .or_else(|| wrong_workers(graph, tables.words(WORKERS)))
}

fn wrong(what: &str, library: &[u32], expected: &[u32]) -> Option<String> {
    (library != expected).then(|| format!("{what} afterwards\n  library  {library:?}\n  expected {expected:?}"))
}

fn wrong_jobs(graph: &Graph, words: &[u32]) -> Option<String> {
    let Sizes { jobs, arcs, bits, workers } = graph.sizes();
    let made = graph.jobs().len();
    let minutes = graph.minutes(graph.sizes()).expect("these are the sizes laid out");
    let header = [&[jobs, arcs, bits, workers, made as u32], &minutes.values()[..]].concat();
    let mut next_in_bucket = vec![NONE; 1 << bits];
    let used = graph.jobs().iter().enumerate().find_map(|(number, job)| {
        let head = &mut next_in_bucket[bucket(job.name, bits) as usize];
        let expected = [
            job.name,
            job.label as u32,
            job.count,
            job.class,
            job.grower,
            place(job.arcs.first().copied()),
            place(job.arcs.last().copied()),
            std::mem::replace(head, number as u32),
            outcome_word(job.outcome),
            u32::from(job.spoiled),
        ];
        let at = job_at(number);
        let library = &words[at..at + JOB_WORDS];
        // The name of the record is made only where it is needed.
        if library == expected {
            None
        } else {
            wrong(&format!("job {number}"), library, &expected)
        }
    });
    let unused = words[job_at(made)..job_at(jobs as usize)].chunks_exact(JOB_WORDS);
    let fresh = [0, 0, 0, 0, 0, NONE, NONE, NONE, 0, 0];
    wrong("the sizes, the jobs made and the minutes", &words[..JOBS_HEADER], &header)
        .or(used)
        .or_else(|| unused.into_iter().find_map(|record| wrong("an unused job", record, &fresh)))
}

fn wrong_arcs(graph: &Graph, words: &[u32]) -> Option<String> {
    let reserved = graph.arcs().len();
    let linked = graph.jobs().iter().flat_map(|job| {
        let nexts = job.arcs.iter().skip(1).copied().map(Some).chain([None]);
        job.arcs.iter().copied().zip(nexts)
    });
    let wrong_linked = linked.into_iter().find_map(|(number, next)| {
        let expected = [place(graph.arcs()[number]), place(next)];
        let library = &words[arc_at(number)..arc_at(number + 1)];
        (library != expected).then(|| wrong(&format!("arc {number}"), library, &expected))?
    });
    let blank = |number: usize| wrong("an unlinked arc", &words[arc_at(number)..arc_at(number + 1)], &[NONE; 2]);
    let unlinked = (0..reserved).filter(|number| graph.arcs()[*number].is_none());
    let unused = &words[arc_at(reserved)..arc_at(graph.sizes().arcs as usize)];
    wrong("the counter of the arcs", &words[..ARCS_HEADER], &[reserved as u32])
        .or(wrong_linked)
        .or_else(|| unlinked.into_iter().find_map(blank))
        .or_else(|| (!unused.iter().all(|word| *word == NONE)).then(|| "an unused arc was changed".into()))
}

fn wrong_buckets(graph: &Graph, words: &[u32]) -> Option<String> {
    let buckets = 0..1 << graph.sizes().bits;
    let heads: Vec<u32> = buckets.map(|number| place(graph.bucket(number).next())).collect();
    wrong("the heads of the buckets", &words[..heads.len()], &heads)
}

fn wrong_queue(graph: &Graph, index: &Index, words: &[u32]) -> Option<String> {
    let mut expected = vec![NONE; cell_at(graph.sizes().jobs as usize)];
    let (taken, put) = index.counters();
    expected[TAKEN] = taken as u32;
    expected[PUT] = put as u32;
    for (place, job) in graph.queue().iter().enumerate().filter(|(_, job)| graph.waits(**job)) {
        expected[cell_at(place)] = *job as u32;
    }
    for (slot, place) in index.slots().iter().enumerate() {
        expected[slot_at(slot)] = *place;
        expected[position_at(*place as usize)] = slot as u32;
    }
    wrong("the counters of the queue", &words[..QUEUE_HEADER], &expected[..QUEUE_HEADER]).or_else(|| {
        let what = "the queue's cells, slots and positions in turn";
        wrong(what, &words[QUEUE_HEADER..expected.len()], &expected[QUEUE_HEADER..])
    })
}

fn wrong_workers(graph: &Graph, words: &[u32]) -> Option<String> {
    graph.workers().iter().enumerate().find_map(|(number, worker)| {
        let library = &words[worker_at(number)..worker_at(number + 1)];
        let expected = worker_words(graph, worker, library);
        (library != expected).then(|| wrong(&format!("worker {number}"), library, &expected))?
    })
}

/// The words of a worker. The name and the job of a finish half done, and its arc before the mark, are the
/// library's own affair: docs/RULES.md says nothing of them, so they are taken from `library`.
fn worker_words(graph: &Graph, worker: &Worker, library: &[u32]) -> [u32; WORKER_WORDS] {
    let mut words = idle_worker(place(worker.held));
    match &worker.call {
        None => {}
        Some(Call::Add(add)) => add_words(add, &mut words),
        Some(Call::Finish(finish)) => {
            words[worker::NAME] = library[worker::NAME];
            words[worker::JOB] = library[worker::JOB];
            match finish {
                Finish::Marking { outcome } => {
                    words[worker::PHASE] = phase::MARKING;
                    words[worker::ARC] = library[worker::ARC];
                    words[worker::NOTE] = outcome_word(Some(*outcome));
                }
                Finish::Notifying { job, outcome, next } => {
                    words[worker::PHASE] = phase::NOTIFYING;
                    words[worker::ARC] = graph.jobs()[*job].arcs[*next] as u32;
                    words[worker::NOTE] = outcome_word(Some(*outcome));
                }
            }
        }
    }
    words
}

fn add_words(add: &Add, words: &mut [u32; WORKER_WORDS]) {
    words[worker::NAME] = add.name;
    words[worker::COUNT] = add.list.len() as u32;
    words[worker::CLASS] = add.class;
    words[worker::GROWER] = add.grower;
    words[worker::NAMES..worker::NAMES + add.list.len()].copy_from_slice(&add.list);
    match add.stage {
        AddStage::LookingUp { place } => {
            words[worker::PHASE] = phase::LOOKING_UP;
            words[worker::PLACE] = place as u32;
        }
        AddStage::Linking { job, first_arc, place, tally, noted } => {
            words[worker::PHASE] = phase::LINKING;
            words[worker::PLACE] = place as u32;
            words[worker::TALLY] = tally;
            words[worker::NOTE] = u32::from(noted);
            words[worker::JOB] = job as u32;
            words[worker::ARC] = if add.list.is_empty() { NONE } else { first_arc as u32 };
        }
    }
}
