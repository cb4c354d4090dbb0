//! Random histories of posts, steps and gets: the library does as the second implementation and the plain book do.

use std::{
    collections::{BTreeMap, BTreeSet},
    fs,
};

use compare_graph::{
    damaged::{Damaged, Met},
    event::{worker_of, Call, Event, History},
    generate, histories,
    random_history::RandomHistory,
    whole,
    world::{call_second, LibraryTold},
};
use compare_sheets::{
    case::Comparison,
    random::{seed, Random},
};
use second_implementation::{
    graph::{Call as Half, Graph, Job, Outcome},
    history::Item,
};

#[test]
fn random_histories() {
    let (mut comparison, _) = Comparison::new("graph, random histories");
    let mut events = 0;
    for number in 0..histories(20_000) {
        let history = generate::history(&mut Random::nth(seed(), "random histories", number));
        events += history.events.len();
        comparison.check(RandomHistory(history));
    }
    println!("\n{events} events in random histories");
    comparison.finish();
}

/// A comparison says nothing of what it never meets: whole calls, the entries of sheets and loads are answered by each
/// number that there is without damage.
#[test]
fn whole_calls_and_loads_are_answered_in_every_way() {
    let mut met = BTreeSet::new();
    for number in 0..300 {
        let history = generate::history(&mut Random::nth(1993, "ways", number));
        let mut graph = Graph::lay_out(history.setup.sizes).expect("the sizes are within their limits");
        for event in &history.events {
            if let Event::Call(call) = event {
                let sizes = call.sizes.unwrap_or_else(|| graph.sizes());
                let told = call_second(&mut graph.clone(), sizes, &call.item);
                met.extend(whole::ways(&call.item, &LibraryTold::of(&told)));
            }
            generate::follow(&mut graph, &history.setup, event);
        }
    }
    let numbers = |what, numbers: &'static [u32]| numbers.iter().map(move |number| (what, *number));
    let expected: BTreeSet<(&str, u32)> = numbers("add", &[0, 1, 2, 3, 5, 6, 7, 8])
        .chain(numbers("finish", &[0, 1, 2, 3, 11, 19]))
        .chain(numbers("sheet", &[0, 1, 2, 3, 16]))
        .chain(numbers("entry", &[0, 5, 6, 7, 8]))
        .chain(numbers("load", &[0, 1, 17, 18]))
        .collect();
    assert_eq!(met, expected);
}

/// Nor does it say anything of an order of hand-outs that is the order of entries, or of a shallow index.
#[test]
fn the_order_of_hand_outs_matters() {
    let (mut all, mut overtaking, mut with_equals, mut deep) = (0, 0, 0, 0);
    for number in 0..600 {
        let history = generate::history(&mut Random::nth(1993, "the order of hand-outs", number));
        let mut graph = Graph::lay_out(history.setup.sizes).expect("the sizes are within their limits");
        for event in &history.events {
            let waiting: Vec<usize> = graph.queue().iter().copied().filter(|job| graph.waits(*job)).collect();
            generate::follow(&mut graph, &history.setup, event);
            let jobs = graph.jobs();
            let handed_out = waiting.iter().position(|job| *job < jobs.len() && !graph.waits(*job));
            if let Some(place) = handed_out {
                let class = jobs[waiting[place]].class;
                all += 1;
                overtaking += usize::from(place > 0);
                with_equals += usize::from(waiting.iter().filter(|job| jobs[**job].class == class).count() > 1);
                deep += usize::from(waiting.len() >= 200);
            }
        }
    }
    println!(
        "\n{all} hand-outs: {overtaking} of jobs that others waited longer than, {with_equals} of jobs beside equals, \
         {deep} with 200 and more waiting"
    );
    assert!(overtaking > 1_000 && with_equals > 1_000 && deep > 100);
}

/// Nor of failures that spoil nothing, or of jobs that are all spoiled. Counts what becomes of jobs.
#[test]
fn failures_come_in_every_way() {
    let mut met: BTreeMap<&str, u64> = BTreeMap::new();
    let mut count = |what: &'static str, holds: bool| *met.entry(what).or_insert(0) += u64::from(holds);
    for number in 0..600 {
        let history = generate::history(&mut Random::nth(1993, "failures", number));
        let mut graph = Graph::lay_out(history.setup.sizes).expect("the sizes are within their limits");
        for event in &history.events {
            let before = graph.clone();
            generate::follow(&mut graph, &history.setup, event);
            let (item, worker) = match event {
                Event::Call(Call { item, sizes: None, short: None }) => (item, worker_of(item).unwrap_or(0) as usize),
                _ => continue,
            };
            let spoiled = |graph: &Graph| graph.jobs().iter().filter(|job| job.spoiled).count();
            let spoils = spoiled(&graph) - spoiled(&before);
            let half = before.workers().get(worker).and_then(|state| state.call.as_ref());
            let held = before.workers().get(worker).and_then(|state| state.held).map(|job| &before.jobs()[job]);
            let holds = |wanted: u32| held.map_or(false, |job| job.spoiled && job.name == wanted);
            match item {
                Item::Step { .. } => {
                    count("a job spoiled by settling", matches!(half, Some(Half::Add(_))) && spoils > 0);
                    count("a job spoiled by an arc's step", matches!(half, Some(Half::Finish(_))) && spoils > 0);
                }
                Item::Add { .. } => count("a job spoiled by an add run whole", spoils > 0),
                Item::AddSheet { .. } => count("a job spoiled by a sheet", spoils > 0),
                Item::Finish { name, outcome, .. } => {
                    count("jobs spoiled by a finish run whole", spoils > 1);
                    count("19 for a finish run whole", *outcome == 0 && half.is_none() && holds(*name));
                    count("a failed outcome by another number", *outcome > 1 && half.is_none() && holds(*name));
                }
                Item::PostFinish { name, outcome, .. } => {
                    count("19 for a post", *outcome == 0 && half.is_none() && holds(*name));
                }
                Item::Get { .. } => {
                    let taken = graph.workers().get(worker).and_then(|state| state.held).filter(|_| held.is_none());
                    let taken = taken.map(|job| graph.jobs()[job].spoiled);
                    count("a spoiled job handed out", taken == Some(true));
                    count("a job handed out that is not", taken == Some(false));
                }
                Item::PostAdd { .. } | Item::Load { .. } => {}
            }
        }
        let failed = |job: &Job| job.outcome == Some(Outcome::Failed);
        count("a job that failed and was not spoiled", graph.jobs().iter().any(|job| failed(job) && !job.spoiled));
        count("a spoiled job that failed", graph.jobs().iter().any(|job| failed(job) && job.spoiled));
        count("spoiled jobs beside good ones", {
            let spoiled = graph.jobs().iter().any(|job| job.spoiled);
            spoiled && graph.jobs().iter().any(|job| job.outcome == Some(Outcome::Good) && !job.arcs.is_empty())
        });
    }
    println!("\n{met:?}");
    assert!(met.values().all(|times| *times > 20), "{met:?}");
}

#[test]
fn histories_of_4096_jobs() {
    let (mut comparison, mut random) = Comparison::new("graph, histories over 4,096 jobs");
    for (events, deep) in [(60_000, false), (20_000, false), (20_000, true)] {
        comparison.check(RandomHistory(generate::large_history(&mut random, events, deep)));
    }
    comparison.finish();
}

/// docs/RULES.md's cases and some damaged tables, as files that `replay` reads too.
#[test]
fn kept_histories() {
    let (mut comparison, _) = Comparison::new("graph, kept histories");
    let folder = concat!(env!("CARGO_MANIFEST_DIR"), "/histories");
    let files = fs::read_dir(folder).expect("the folder of kept histories is there");
    for file in files {
        let path = file.expect("a file of the folder").path();
        let text = fs::read_to_string(&path).expect("a kept history is text");
        let history: History = text.parse().unwrap_or_else(|error| panic!("{}: {error}", path.display()));
        println!("{}", path.display());
        if history.is_damaged() {
            comparison.check(Damaged(history, &Met::default()));
        } else {
            comparison.check(RandomHistory(history));
        }
    }
    comparison.finish();
}
