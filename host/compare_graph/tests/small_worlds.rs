//! Every order of the turns of two workers with short scripts, over small graphs.

use compare_graph::{
    event::Event,
    random_history::RandomHistory,
    small_worlds::{entry, scripts, Call, Start},
    tables::Setup,
};
use compare_sheets::case::Comparison;
use second_implementation::{graph::Sizes, history::Item};
use taskgraph::raw::FAILED;

/// The most turns of two scripts together, the further arcs of a finish aside.
const MOST_TURNS: usize = 12;

/// The same, where one of the scripts has calls run whole, which are one turn each.
const MOST_WHOLE_TURNS: usize = 8;

const CALLS: [Call; 7] = [
    Call::Get,
    Call::Finish,
    Call::Add { name: 4, list: &[] },
    Call::Add { name: 4, list: &[1] },
    Call::Add { name: 5, list: &[4] },
    Call::Add { name: 4, list: &[5] },
    Call::Add { name: 4, list: &[1, 2] },
];

/// Job 4 needs one job that may fail, or two, and job 5 needs job 4.
const FAILING_CALLS: [Call; 6] = [
    Call::Get,
    Call::Fail,
    Call::Finish,
    Call::Add { name: 4, list: &[1] },
    Call::Add { name: 4, list: &[1, 2] },
    Call::Add { name: 5, list: &[4] },
];

const WHOLE_CALLS: [Call; 7] = [
    Call::Get,
    Call::WholeFinish,
    Call::WholeFail,
    Call::WholeAdd { name: 4, list: &[1] },
    Call::Add { name: 4, list: &[1] },
    Call::Sheet(&[(4, &[]), (5, &[4])]),
    Call::Sheet(&[(4, &[5]), (5, &[1, 2]), (4, &[5])]),
];

/// Right values, others as right, the least and the greatest, one too few and one over the limit.
const LOAD_CALLS: [Call; 8] = [
    Call::Load { first: 7, values: 16 },
    Call::Load { first: 1_425, values: 16 },
    Call::Load { first: 0, values: 16 },
    Call::Load { first: 1_426, values: 16 },
    Call::Load { first: 1, values: 15 },
    Call::Get,
    Call::WholeAdd { name: 4, list: &[] },
    Call::Add { name: 5, list: &[] },
];

/// A whole add by worker 0, in steps.
fn whole_add(name: u32, list: &[u32]) -> Vec<Event> {
    let steps = (0..2 * list.len() + 2).map(|_| Item::Step { worker: 0 });
    let post = Item::PostAdd { worker: 0, entry: entry(name, list) };
    std::iter::once(post).chain(steps).map(Event::from).collect()
}

fn get(worker: u32) -> Vec<Event> {
    vec![Item::Get { worker }.into()]
}

fn fail(worker: u32, name: u32) -> Vec<Event> {
    vec![Item::Finish { worker, name, outcome: FAILED }.into()]
}

fn start(jobs: u32, arcs: u32, bits: u32, events: &[Vec<Event>]) -> Start {
    let sizes = Sizes { jobs, arcs, bits, workers: 2 };
    Start { setup: Setup { sizes, slack: [0; 5], fill: 1, guard: 0 }, events: events.concat() }
}

fn starts() -> Vec<Start> {
    let jobs_1_2 = || [whole_add(1, &[]), whole_add(2, &[])].concat();
    vec![
        start(4, 4, 1, &[]),
        start(1, 0, 2, &[]),
        start(2, 1, 1, &[whole_add(1, &[])]),
        start(3, 2, 2, &[whole_add(1, &[]), get(0)]),
        start(4, 4, 1, &[jobs_1_2(), get(0), get(1)]),
        start(4, 4, 2, &[jobs_1_2(), whole_add(3, &[1, 2]), get(0), get(1)]),
        start(4, 3, 2, &[jobs_1_2(), whole_add(3, &[2]), get(0)]),
        start(5, 2, 1, &[whole_add(3, &[]), jobs_1_2()]),
        start(5, 4, 1, &[jobs_1_2(), get(0), fail(0, 1), get(1)]),
    ]
}

#[test]
fn every_order_of_two_scripts() {
    let test = "graph, every order of the turns of two scripts";
    let scripts = scripts(&CALLS, 3);
    every_order(test, [&scripts, &scripts], MOST_TURNS);
}

/// Finishes that fail beside adds: before a link, after it, and between others.
#[test]
fn every_order_with_failed_finishes() {
    let test = "graph, every order of the turns of two scripts with failed finishes";
    let scripts = scripts(&FAILING_CALLS, 3);
    every_order(test, [&scripts, &scripts], MOST_TURNS);
}

/// One worker takes single steps, or whole calls too, and the other whole calls.
#[test]
fn every_order_beside_whole_calls() {
    let test = "graph, every order of the turns of two scripts, one with whole calls";
    every_order(test, [&scripts(&CALLS, 2), &scripts(&WHOLE_CALLS, 3)], MOST_WHOLE_TURNS);
}

/// One worker takes single steps, and the other loads minutes among its calls: between a post and its steps too.
#[test]
fn every_order_beside_loads() {
    let test = "graph, every order of the turns of two scripts, one with loads";
    every_order(test, [&scripts(&CALLS, 2), &scripts(&LOAD_CALLS, 3)], MOST_WHOLE_TURNS);
}

/// Takes each pair of scripts that has not too many turns in every order of their turns.
fn every_order(test: &'static str, scripts: [&[Vec<Call>]; 2], most: usize) {
    let turns = |script: &[Call]| script.iter().map(|call| call.turns()).sum::<usize>();
    let (mut orders, mut pairs) = (0, 0_u64);
    for start in starts() {
        let world = start.world();
        for one in scripts[0].iter().filter(|one| turns(one) < most) {
            for other in scripts[1].iter().filter(|other| turns(other) < most && turns(one) + turns(other) <= most) {
                let taken =
                    world.as_ref().map_err(Clone::clone).and_then(|world| start.every_order(world, [one, other]));
                match taken {
                    Ok(taken) => orders += taken,
                    Err(history) => Comparison::new(test).0.check(RandomHistory(*history)),
                }
                pairs += 1;
            }
        }
    }
    println!("\ncompared {orders} inputs: {test} ({pairs} pairs of scripts)");
}
