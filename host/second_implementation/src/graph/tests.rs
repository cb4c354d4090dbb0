//! docs/RULES.md's cases, and the order of its refusals.

use super::*;
use crate::sheet::{Names, MAX_NAMES};

const POSTED: Answer = Ok(Reply::Posted);
const GOING_ON: Answer = Ok(Reply::GoingOn);
const ENDED: Answer = Ok(Reply::Ended);
const NONE_READY: Answer = Ok(Reply::NoneReady);

fn entry(name: u32, list: &[u32]) -> Entry {
    let mut names = [0; MAX_NAMES];
    names[..list.len()].copy_from_slice(list);
    Entry { name, prerequisites: Names { count: list.len(), names }, class: 0, grower: 0 }
}

/// A graph whose calls bring the sizes laid out.
#[derive(Clone)]
struct Small(Graph);

impl Small {
    fn new(jobs: u32, arcs: u32) -> Small {
        Small(Graph::lay_out(Sizes { jobs, arcs, bits: 2, workers: 2 }).unwrap())
    }

    fn post_add(&mut self, worker: u32, name: u32, list: &[u32]) -> Answer {
        self.0.post_add(self.0.sizes(), worker, &entry(name, list))
    }

    fn post_finish(&mut self, worker: u32, name: u32) -> Answer {
        self.0.post_finish(self.0.sizes(), worker, name, Outcome::Good)
    }

    fn finish(&mut self, worker: u32, name: u32, outcome: Outcome) -> Answer {
        self.0.finish(self.0.sizes(), worker, name, outcome)
    }

    fn step(&mut self, worker: u32) -> Answer {
        self.0.step(self.0.sizes(), worker)
    }

    fn get(&mut self, worker: u32) -> Answer {
        self.0.get(self.0.sizes(), worker)
    }

    /// Steps a worker to the answer that ends its call: their number, and that answer.
    fn run(&mut self, worker: u32) -> (usize, Answer) {
        (1..).map(|number| (number, self.step(worker))).find(|(_, answer)| *answer != GOING_ON).unwrap()
    }

    fn add(&mut self, worker: u32, name: u32, list: &[u32]) -> Answer {
        self.post_add(worker, name, list).and_then(|_| self.run(worker).1)
    }

    fn queued(&self) -> &[usize] {
        self.0.queue()
    }
}

fn handed_out(job: usize, name: u32) -> Answer {
    Ok(Reply::HandedOut { job, name, spoiled: false })
}

fn handed_out_spoiled(job: usize, name: u32) -> Answer {
    Ok(Reply::HandedOut { job, name, spoiled: true })
}

#[test]
fn case_1_a_job_without_prerequisites() {
    let mut graph = Small::new(2, 0);
    assert_eq!(graph.post_add(0, 1, &[]), POSTED);
    assert_eq!(graph.step(0), GOING_ON);
    assert!(graph.queued().is_empty());
    assert_eq!(graph.step(0), ENDED);
    assert_eq!(graph.queued(), [0]);
}

/// Worker 0 holds job 1, and worker 1 has posted an add of 4 needing 1 and taken `steps` steps; then worker 0 posts its
/// finish.
fn beside_an_add(steps: usize, outcome: Outcome) -> Small {
    let mut graph = Small::new(4, 4);
    assert_eq!(graph.add(0, 1, &[]), ENDED);
    assert_eq!(graph.get(0), handed_out(0, 1));
    assert_eq!(graph.post_add(1, 4, &[1]), POSTED);
    (0..steps).for_each(|_| assert_eq!(graph.step(1), GOING_ON));
    assert_eq!(graph.0.post_finish(graph.0.sizes(), 0, 1, outcome), POSTED);
    graph
}

#[test]
fn case_2_marked_before_the_link() {
    let mut graph = beside_an_add(2, Outcome::Good);
    assert_eq!(graph.step(0), ENDED, "a mark with no arcs ends the call");
    assert_eq!(graph.step(1), GOING_ON);
    assert_eq!(graph.0.jobs()[1].count, 1);
    assert_eq!(graph.step(1), ENDED);
    assert_eq!((graph.0.jobs()[1].count, graph.queued()), (0, &[0, 1][..]));
    assert_eq!(graph.0.arcs(), [None], "the arc reserved stays unused");
}

#[test]
fn case_3_linked_before_the_mark() {
    let mut graph = beside_an_add(3, Outcome::Good);
    assert_eq!(graph.run(0), (2, ENDED));
    assert_eq!(graph.queued(), [0, 1]);
    assert_eq!(graph.step(1), ENDED);
    assert_eq!(graph.queued(), [0, 1], "settling adds nothing");
}

type Turn = fn(&mut Small, u32) -> Answer;

/// Every order of two workers' remaining turns, each of which must answer as given.
fn every_order(graph: &Small, turns: [&[Turn]; 2], answers: [&[Answer]; 2]) -> usize {
    let mut orders = 0;
    for worker in 0..2 {
        if let Some((turn, rest)) = turns[worker].split_first() {
            let mut graph = graph.clone();
            assert_eq!(turn(&mut graph, worker as u32), answers[worker][0]);
            let (mut turns, mut answers) = (turns, answers);
            turns[worker] = rest;
            answers[worker] = &answers[worker][1..];
            orders += every_order(&graph, turns, answers);
        }
    }
    orders.max(1)
}

#[test]
fn case_4_two_jobs_that_need_each_other() {
    let post_7 = |graph: &mut Small, worker| graph.post_add(worker, 7, &[8]);
    let post_8 = |graph: &mut Small, worker| graph.post_add(worker, 8, &[7]);
    let step = |graph: &mut Small, worker| graph.step(worker);
    let unknown = Err(Refusal { number: 6, place: 0 });
    let orders = every_order(&Small::new(2, 2), [&[post_7, step], &[post_8, step]], [&[POSTED, unknown]; 2]);
    assert_eq!(orders, 6);
}

#[test]
fn case_5_full_tables() {
    let mut graph = Small::new(1, 0);
    assert_eq!(graph.add(0, 1, &[]), ENDED);
    assert_eq!(graph.add(0, 2, &[]), refused(8));
    let mut graph = Small::new(4, 2);
    assert_eq!(graph.add(0, 1, &[]), ENDED);
    assert_eq!(graph.add(0, 2, &[]), ENDED);
    assert_eq!(graph.add(0, 3, &[1, 2]), ENDED);
    assert_eq!(graph.add(0, 4, &[1]), refused(8));
    assert_eq!(graph.add(0, 4, &[]), ENDED);
}

#[test]
fn case_6_the_same_new_name_twice() {
    let mut graph = Small::new(4, 2);
    assert_eq!(graph.post_add(0, 5, &[]), POSTED);
    assert_eq!(graph.post_add(1, 5, &[]), POSTED);
    assert_eq!(graph.step(1), GOING_ON);
    assert_eq!(graph.step(0), refused(7));
    assert_eq!(graph.step(0), refused(4), "the refused worker is idle");
    assert_eq!(graph.step(1), ENDED);
}

#[test]
fn case_7_buckets() {
    let mut graph = Small::new(5, 0);
    (1..=5).for_each(|name| assert_eq!(graph.add(0, name, &[]), ENDED));
    let buckets: Vec<Vec<usize>> = (0..4).map(|number| graph.0.bucket(number).collect()).collect();
    assert_eq!(buckets, [vec![4, 1], vec![3], vec![0], vec![2]], "a new job is its bucket's head");
}

#[test]
fn case_9_the_longest_list() {
    let mut graph = Small(Graph::lay_out(Sizes { jobs: 33, arcs: 32, bits: 8, workers: 1 }).unwrap());
    let list: Vec<u32> = (100..132).collect();
    list.iter().for_each(|name| assert_eq!(graph.add(0, *name, &[]), ENDED));
    let mut long = entry(1, &list);
    long.prerequisites.count = 33;
    assert_eq!(graph.0.post_add(graph.0.sizes(), 0, &long), refused(5));
    assert_eq!(graph.post_add(0, 1, &list), POSTED);
    assert_eq!(graph.run(0), (66, ENDED), "2d + 2 steps");
}

#[test]
fn arguments_of_an_add() {
    let mut graph = Small::new(4, 4);
    let wrong = [
        entry(1, &[1]),
        entry(1, &[2, 3, 2]),
        entry(0, &[0]),
        Entry { class: 16, ..entry(1, &[]) },
        Entry { grower: 65_536, ..entry(1, &[]) },
    ];
    for entry in wrong {
        assert_eq!(graph.0.post_add(graph.0.sizes(), 0, &entry), refused(5));
    }
    let mut tail = entry(1, &[2]);
    tail.prerequisites.names[1..].fill(2);
    assert_eq!(graph.0.post_add(graph.0.sizes(), 0, &tail), POSTED, "names past the count do not matter");
}

#[test]
fn the_order_of_the_tests() {
    let mut graph = Small::new(4, 4);
    let wrong = Entry { class: 16, ..entry(1, &[]) };
    let sizes = graph.0.sizes();
    let other = Sizes { arcs: 5, ..sizes };
    assert_eq!(graph.0.post_add(other, 9, &wrong), refused(1));
    assert_eq!(graph.0.post_add(sizes, 2, &wrong), refused(2));
    assert_eq!(graph.post_finish(0, 1), refused(11));
    assert_eq!(graph.post_add(0, 1, &[]), POSTED);
    assert_eq!(graph.0.post_add(sizes, 0, &wrong), refused(3));
    assert_eq!(graph.post_finish(0, 1), refused(3));
    assert_eq!(graph.get(0), refused(3));
    assert_eq!(graph.get(1), NONE_READY);
    assert_eq!(graph.run(0), (2, ENDED));
    assert_eq!(graph.step(0), refused(4));
    assert_eq!(graph.get(0), handed_out(0, 1));
    assert_eq!(graph.get(0), refused(10));
    assert_eq!(graph.post_finish(1, 1), refused(11));
    assert_eq!(graph.post_finish(0, 2), refused(11));
    assert_eq!(graph.add(0, 1, &[3]), Err(Refusal { number: 6, place: 0 }), "6 comes before 7");
    assert_eq!(graph.0.workers()[0].held, Some(0), "a holder may add and keeps its hold");
}

fn rows(entries: &[Entry]) -> Vec<u32> {
    entries.iter().flat_map(|entry| entry.to_row()).collect()
}

#[test]
fn a_sheet_goes_on_after_a_refused_entry() {
    let mut graph = Small::new(3, 2);
    let sizes = graph.0.sizes();
    let wrong = Entry { class: 16, ..entry(1, &[]) };
    let entries =
        [entry(1, &[]), wrong, entry(2, &[1, 7]), entry(1, &[]), entry(2, &[1]), entry(3, &[1, 2]), entry(3, &[])];
    let unknown = Err(Refusal { number: 6, place: 1 });
    let answers = vec![ENDED, refused(5), unknown, refused(7), ENDED, refused(8), ENDED];
    assert_eq!(graph.0.add_sheet(sizes, 0, &rows(&entries)), Ok(answers));
    assert_eq!(graph.queued(), [0, 2]);
    assert_eq!(graph.0.add_sheet(sizes, 0, &[]), Ok(vec![]), "nothing to do");
    assert_eq!(graph.get(0), handed_out(0, 1));
    assert_eq!(graph.finish(0, 2, Outcome::Good), refused(11));
    assert_eq!(graph.finish(0, 1, Outcome::Good), ENDED);
    assert_eq!(graph.queued(), [0, 2, 1]);
    assert_eq!(graph.0.add(sizes, 0, &entry(3, &[])), refused(7));
}

#[test]
fn what_turns_a_sheet_away() {
    let mut graph = Small::new(4, 4);
    let sizes = graph.0.sizes();
    let most = rows(&[entry(1, &[]); 64]);
    let more = rows(&[entry(1, &[]); 65]);
    assert_eq!(graph.0.add_sheet(sizes, 9, &more[1..]), refused(1), "no whole rows");
    assert_eq!(graph.0.add_sheet(Sizes { arcs: 5, ..sizes }, 9, &more), refused(1));
    assert_eq!(graph.0.add_sheet(sizes, 2, &more), refused(2));
    assert_eq!(graph.post_add(0, 9, &[]), POSTED);
    assert_eq!(graph.0.add_sheet(sizes, 0, &more), refused(3), "3 comes before 16");
    assert_eq!(graph.0.add_sheet(sizes, 0, &[]), refused(3));
    assert_eq!(graph.0.add_sheet(sizes, 1, &more), refused(16));
    assert!(graph.0.jobs().is_empty());
    assert_eq!(graph.0.add_sheet(sizes, 1, &most).map(|answers| answers.len()), Ok(64));
    assert_eq!(graph.0.jobs().len(), 1);
}

#[test]
fn sizes_off_their_limits() {
    let good = Sizes { jobs: 4_096, arcs: 32_768, bits: 8, workers: 16 };
    assert!(Graph::lay_out(good).is_ok());
    assert!(Graph::lay_out(Sizes { jobs: 1, arcs: 0, bits: 1, workers: 1 }).is_ok());
    let wrong = [
        Sizes { jobs: 0, ..good },
        Sizes { jobs: 4_097, ..good },
        Sizes { arcs: 32_769, ..good },
        Sizes { bits: 0, ..good },
        Sizes { bits: 9, ..good },
        Sizes { workers: 0, ..good },
        Sizes { workers: 17, ..good },
    ];
    assert!(wrong.iter().all(|sizes| Graph::lay_out(*sizes).is_err()));
}

#[test]
fn equal_minutes_by_entry_and_oldest_arc_first() {
    let mut graph = Small::new(4, 4);
    assert_eq!(graph.add(0, 10, &[]), ENDED);
    (11..=13).for_each(|name| assert_eq!(graph.add(1, name, &[10]), ENDED));
    assert_eq!(graph.get(0), handed_out(0, 10));
    assert_eq!(graph.post_finish(0, 10), POSTED);
    assert_eq!(graph.run(0), (4, ENDED), "1 step more than it has arcs");
    (11..=13).zip(1..).for_each(|(name, job)| {
        assert_eq!(graph.get(0), handed_out(job, name));
        assert_eq!(graph.post_finish(0, name), POSTED);
        assert_eq!(graph.run(0), (1, ENDED));
    });
    assert_eq!(graph.get(0), NONE_READY);
}

/// Worker 0 gets and finishes the jobs of these names, in this order.
fn handed_out_in_order(graph: &mut Small, names: &[u32]) {
    for name in names {
        let job = graph.0.find(*name).unwrap();
        assert_eq!(graph.get(0), handed_out(job, *name));
        assert_eq!(graph.finish(0, *name, Outcome::Good), ENDED);
    }
}

#[test]
fn the_most_minutes_first() {
    let mut graph = Small::new(8, 1);
    let sizes = graph.0.sizes();
    for (name, class) in [(1, 0), (2, 3), (3, 3), (4, 15), (5, 0)] {
        assert_eq!(graph.0.add(sizes, 1, &Entry { class, ..entry(name, &[]) }), ENDED);
    }
    handed_out_in_order(&mut graph, &[4, 2]);
    // A heavier job that enters comes before those that wait, an equal one after its equals.
    assert_eq!(graph.0.add(sizes, 1, &Entry { class: 3, ..entry(6, &[]) }), ENDED);
    assert_eq!(graph.0.add(sizes, 1, &Entry { class: 9, ..entry(7, &[]) }), ENDED);
    handed_out_in_order(&mut graph, &[7, 3, 6, 1, 5]);
    assert_eq!(graph.get(0), NONE_READY);
}

/// What counts is the entry into the queue, not that into the graph.
#[test]
fn equal_minutes_by_entry_into_the_queue() {
    let mut graph = Small::new(4, 1);
    assert_eq!(graph.add(0, 1, &[]), ENDED);
    assert_eq!(graph.add(0, 2, &[1]), ENDED);
    assert_eq!(graph.get(0), handed_out(0, 1));
    assert_eq!(graph.add(1, 3, &[]), ENDED);
    assert_eq!(graph.finish(0, 1, Outcome::Good), ENDED);
    handed_out_in_order(&mut graph, &[3, 2]);
}

#[test]
fn what_a_worker_holds_and_when_all_is_done() {
    let mut graph = Small::new(4, 4);
    let sizes = graph.0.sizes();
    let told = |graph: &Small| (graph.0.held(sizes, 1), graph.0.drained(sizes));
    let holding = |held, call| Ok(Holding { held, call });
    assert_eq!(told(&graph), (holding(None, HalfDone::Nothing), Ok(true)));
    assert_eq!(graph.post_add(1, 9, &[]), POSTED);
    assert_eq!(told(&graph), (holding(None, HalfDone::Add { name: 9 }), Ok(false)));
    assert_eq!(graph.run(1), (2, ENDED));
    assert_eq!(told(&graph), (holding(None, HalfDone::Nothing), Ok(false)), "a job waits");
    assert_eq!(graph.get(1), handed_out(0, 9));
    assert_eq!(told(&graph), (holding(Some(Held { job: 0, name: 9, spoiled: false }), HalfDone::Nothing), Ok(false)));
    assert_eq!(graph.add(0, 8, &[9]), ENDED);
    assert_eq!(graph.post_finish(1, 9), POSTED);
    assert_eq!(told(&graph), (holding(Some(Held { job: 0, name: 9, spoiled: false }), HalfDone::Finish), Ok(false)));
    assert_eq!(graph.step(1), GOING_ON);
    assert_eq!(told(&graph), (holding(None, HalfDone::Finish), Ok(false)), "the mark frees the hold");
    assert_eq!(graph.step(1), ENDED);
    assert_eq!(graph.get(0), handed_out(1, 8));
    assert_eq!(told(&graph), (holding(None, HalfDone::Nothing), Ok(false)), "the other worker holds a job");
    assert_eq!(graph.post_finish(0, 8), POSTED);
    assert_eq!(graph.run(0), (1, ENDED));
    assert_eq!(told(&graph), (holding(None, HalfDone::Nothing), Ok(true)));
    assert_eq!(graph.0.held(sizes, 2), Err(Refusal { number: 2, place: 0 }));
    let other = Sizes { workers: 1, ..sizes };
    assert_eq!((graph.0.held(other, 2).is_err(), graph.0.drained(other)), (true, refused(1)));
}

/// A district's minutes, of which class 0 has as many as the fixed ones give class 7.
fn district() -> Vec<u32> {
    (20..36).collect()
}

#[test]
fn a_district_loads_its_minutes_before_the_first_job_enters() {
    let mut graph = Small::new(2, 0);
    let sizes = graph.0.sizes();
    let values = |graph: &Small| graph.0.minutes(sizes).map(|minutes| minutes.values().to_vec());
    assert_eq!(values(&graph), Ok(Minutes::FIXED.values().to_vec()));
    assert_eq!(graph.post_add(0, 1, &[]), POSTED);
    assert_eq!(graph.0.load_minutes(sizes, &district()), Ok(Reply::Loaded), "posted, and not entered");
    assert_eq!(values(&graph), Ok(district()));
    let later: Vec<u32> = (1..17).collect();
    assert_eq!(graph.0.load_minutes(sizes, &later), Ok(Reply::Loaded), "again");
    assert_eq!(graph.0.load_minutes(sizes, &district()), Ok(Reply::Loaded), "and again");
    assert_eq!(graph.step(0), GOING_ON);
    assert_eq!(graph.0.load_minutes(sizes, &later), refused(refusal::ENTERED));
    assert_eq!(graph.run(0), (1, ENDED));
    assert_eq!(values(&graph), Ok(district()));
    let unexecuted = |graph: &Small| graph.0.totals(sizes).unwrap().under(Label::Unexecuted);
    assert_eq!((unexecuted(&graph).jobs, unexecuted(&graph).minutes), (1, 20));
    graph = Small::new(2, 0);
    assert_eq!(values(&graph), Ok(Minutes::FIXED.values().to_vec()), "laid out anew");
}

#[test]
fn the_order_of_what_turns_a_load_away() {
    let mut graph = Small::new(1, 0);
    let (sizes, other) = (graph.0.sizes(), Sizes { workers: 3, ..graph.0.sizes() });
    assert_eq!(graph.add(0, 1, &[]), ENDED);
    assert_eq!(graph.0.load_minutes(other, &[]), refused(refusal::SIZE));
    assert_eq!(graph.0.load_minutes(sizes, &[]), refused(refusal::MINUTES));
    assert_eq!(graph.0.load_minutes(sizes, &district()), refused(refusal::ENTERED));
    assert_eq!(graph.0.minutes(other), refused(refusal::SIZE));
    assert_eq!(graph.0.totals(other), Err(TotalsError::Size));
}

/// What of the jobs is spoiled.
fn spoiled(graph: &Small) -> Vec<bool> {
    graph.0.jobs().iter().map(|job| job.spoiled).collect()
}

/// Jobs 1 and 2; 3 needs both, 4 needs 3, and 5 needs 2. Job 1 fails.
#[test]
fn a_failed_finish_spoils_the_dependents_of_its_arcs() {
    let mut graph = Small::new(5, 4);
    for (name, list) in [(1, &[][..]), (2, &[]), (3, &[1, 2]), (4, &[3]), (5, &[2])] {
        assert_eq!(graph.add(0, name, list), ENDED);
    }
    assert_eq!(graph.get(0), handed_out(0, 1));
    assert_eq!(graph.finish(0, 1, Outcome::Failed), ENDED);
    assert_eq!(spoiled(&graph), [false, false, true, false, false], "4 rests on 3, which has not failed yet");
    assert_eq!(graph.get(0), handed_out(1, 2));
    assert_eq!(graph.finish(0, 2, Outcome::Good), ENDED);
    assert_eq!(graph.get(1), handed_out_spoiled(2, 3), "it is queued and handed out all the same");
    assert_eq!(graph.finish(1, 2, Outcome::Good), refused(refusal::NOT_HELD), "11 comes before 19");
    assert_eq!(graph.finish(1, 3, Outcome::Good), refused(refusal::GOOD_FOR_SPOILED));
    assert_eq!(graph.post_finish(1, 3), refused(refusal::GOOD_FOR_SPOILED));
    let held = Some(Held { job: 2, name: 3, spoiled: true });
    assert_eq!(graph.0.held(graph.0.sizes(), 1), Ok(Holding { held, call: HalfDone::Nothing }), "nothing changed");
    assert_eq!(graph.finish(1, 3, Outcome::Failed), ENDED);
    assert_eq!(spoiled(&graph), [false, false, true, true, false]);
    assert_eq!(graph.get(0), handed_out(4, 5), "it rests on 2, which is good");
    assert_eq!(graph.finish(0, 5, Outcome::Failed), ENDED, "a job that is not spoiled may fail too");
    assert_eq!(graph.get(0), handed_out_spoiled(3, 4));
    assert_eq!(graph.post_add(0, 6, &[]), POSTED);
    assert_eq!(graph.finish(0, 4, Outcome::Good), refused(refusal::HALF_DONE), "3 comes before 19");
}

#[test]
fn a_link_to_a_failed_job_is_noted_and_settling_spoils() {
    let mut graph = Small::new(4, 4);
    assert_eq!(graph.add(0, 1, &[]), ENDED);
    assert_eq!(graph.add(0, 2, &[]), ENDED);
    assert_eq!(graph.get(0), handed_out(0, 1));
    assert_eq!(graph.finish(0, 1, Outcome::Failed), ENDED);
    assert_eq!(graph.post_add(1, 3, &[1, 2]), POSTED);
    (0..4).for_each(|_| assert_eq!(graph.step(1), GOING_ON));
    assert_eq!(spoiled(&graph), [false; 3], "noted, and not settled");
    // The other prerequisite ends meanwhile, as good; the note keeps the job from the queue until it settles.
    assert_eq!(graph.get(0), handed_out(1, 2));
    assert_eq!(graph.step(1), GOING_ON);
    assert_eq!(graph.finish(0, 2, Outcome::Good), ENDED);
    assert_eq!(graph.get(0), NONE_READY);
    assert_eq!(graph.step(1), ENDED);
    assert_eq!(graph.get(0), handed_out_spoiled(2, 3));
    assert_eq!(graph.add(1, 4, &[2]), ENDED);
    assert_eq!(graph.get(1), handed_out(3, 4), "it rests on a good one");
}

/// Cases 2 and 3 with a failed finish: the mark before the link, and after it.
#[test]
fn a_failed_finish_beside_an_add() {
    for steps in 0..=3 {
        let mut graph = beside_an_add(steps, Outcome::Failed);
        assert_eq!(graph.run(0).1, ENDED);
        assert_eq!(graph.run(1).1, ENDED);
        assert_eq!((spoiled(&graph), graph.queued()), (vec![false, true], &[0, 1][..]), "after {steps} steps");
        assert_eq!(graph.get(0), handed_out_spoiled(1, 4));
    }
}
