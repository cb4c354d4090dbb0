//! The calls of a graph in memory of its own, and the refusals that each may answer.

use taskgraph::{
    minutes, raw::JobRecord, totals_by_minutes, Graph, HalfDone, HandedOut, Holding, Job, Outcome, Progress, Refusal,
    Sizes, Sum, TaskGraph, CLASSES,
};

const SIZES: Sizes = Sizes { jobs: 4, arcs: 3, bits: 2, workers: 2 };

/// The first job stands behind five words and the minutes of each class; its label is its second word.
const JOBS_AT: usize = 5 + CLASSES;
const LABEL: usize = JOBS_AT + 1;
const COUNT: usize = JOBS_AT + 2;
const OUTCOME: usize = JOBS_AT + 8;
const MARK: usize = JOBS_AT + 9;

/// The words of a job, and of a worker, whose note is this one.
const JOB_WORDS: usize = 10;
const WORKER_WORDS: usize = 43;
const NOTE: usize = 10;

/// A district's minutes.
const DISTRICT: [u32; CLASSES] = [5, 10, 15, 20, 25, 30, 40, 50, 60, 75, 90, 120, 180, 240, 480, 1_440];

fn fresh() -> Graph {
    Graph::create(SIZES).expect("the sizes are within their limits")
}

/// A job that is not spoiled.
fn handed_out(job: u32, name: u32) -> HandedOut {
    HandedOut { job, name, spoiled: false }
}

#[test]
fn a_small_day() {
    let mut graph = fresh();
    for job in [Job::new(1, &[]), Job::new(2, &[]), Job { class: 4, ..Job::new(3, &[1, 2]) }] {
        assert_eq!(graph.add(0, &job), Ok(()));
    }
    assert_eq!(graph.get(0), Ok(Some(handed_out(0, 1))));
    assert_eq!(graph.get(1), Ok(Some(handed_out(1, 2))));
    assert_eq!(graph.finish(0, 1, Outcome::Good), Ok(()));
    assert_eq!(graph.get(0), Ok(None));
    let totals = graph.totals().expect("the graph is not damaged");
    assert_eq!(totals.unexecuted, Sum { jobs: 1, minutes: 8 });
    assert_eq!(totals.executing, Sum { jobs: 1, minutes: 1 });
    assert_eq!(totals.finished, Sum { jobs: 1, minutes: 1 });
    assert_eq!(graph.finish(1, 2, Outcome::Good), Ok(()));
    assert_eq!(graph.get(0), Ok(Some(handed_out(2, 3))));
}

#[test]
fn long_jobs_first() {
    let mut graph = fresh();
    let chores = [Job::new(1, &[]), Job::new(2, &[])];
    assert_eq!(graph.add_sheet(0, &chores), Ok(vec![Ok(()); 2]));
    assert_eq!(graph.add(0, &Job { class: 15, ..Job::new(3, &[]) }), Ok(()));
    assert_eq!(graph.add(0, &Job { class: 15, ..Job::new(4, &[3]) }), Ok(()));
    let mut order = Vec::new();
    while let Some(job) = graph.get(1).expect("the worker holds no job") {
        order.push(job.name);
        assert_eq!(graph.finish(1, job.name, Outcome::Good), Ok(()));
    }
    // The finish of 3 readies 4, which overtakes the chores; of these the first to enter is the first.
    assert_eq!(order, [3, 4, 1, 2]);
}

#[test]
fn step_by_step() {
    let mut graph = fresh();
    assert_eq!(graph.add(0, &Job::new(1, &[])), Ok(()));
    assert_eq!(graph.post_add(1, &Job::new(2, &[1])), Ok(()));
    // An accepted add of one prerequisite takes four steps.
    let steps = [(); 4].map(|()| graph.step(1));
    assert_eq!(steps, [Ok(Progress::GoingOn), Ok(Progress::GoingOn), Ok(Progress::GoingOn), Ok(Progress::Ended)]);
    assert_eq!(graph.step(1), Err(Refusal::Idle));
}

#[test]
fn what_a_worker_holds() {
    let mut graph = fresh();
    assert_eq!(graph.drained(), Ok(true));
    assert_eq!(graph.post_add(1, &Job::new(7, &[])), Ok(()));
    assert_eq!(graph.held(1), Ok(Holding { job: None, call: Some(HalfDone::Add { name: 7 }) }));
    assert_eq!(graph.held(0), Ok(Holding::default()));
    assert_eq!(graph.drained(), Ok(false), "a call is half done");
    assert_eq!(graph.run(1), Ok(()));
    assert_eq!(graph.drained(), Ok(false), "a job waits");
    let job = Some(handed_out(0, 7));
    assert_eq!(graph.get(0), Ok(job));
    assert_eq!(graph.drained(), Ok(false), "a job is held");
    assert_eq!(graph.post_finish(0, 7, Outcome::Good), Ok(()));
    assert_eq!(graph.held(0), Ok(Holding { job, call: Some(HalfDone::Finish) }));
    assert_eq!(graph.run(0), Ok(()));
    assert_eq!(graph.drained(), Ok(true));
    assert_eq!(graph.held(2), Err(Refusal::Worker));
    // The phase of worker 1.
    graph.tables().workers[WORKER_WORDS] = 5;
    assert_eq!((graph.held(1), graph.drained()), (Err(Refusal::Damaged), Err(Refusal::Damaged)));
    graph.tables().workers[WORKER_WORDS] = 0;
    assert_eq!(graph.held(1), Ok(Holding::default()));
    // The jobs made.
    graph.tables().jobs[4] = u32::MAX;
    assert_eq!(graph.held(1), Err(Refusal::Damaged));
}

#[test]
fn sizes_are_judged() {
    for sizes in [Sizes { jobs: 0, ..SIZES }, Sizes { arcs: 32_769, ..SIZES }, Sizes { bits: 9, ..SIZES }] {
        assert_eq!(Graph::create(sizes).map(drop), Err(Refusal::Size));
    }
}

#[test]
fn adds_that_are_refused() {
    let mut graph = fresh();
    assert_eq!(graph.add(2, &Job::new(1, &[])), Err(Refusal::Worker));
    assert_eq!(graph.add(0, &Job::new(1, &[1])), Err(Refusal::Arguments));
    assert_eq!(graph.add(0, &Job { class: 16, ..Job::new(1, &[]) }), Err(Refusal::Arguments));
    assert_eq!(graph.add(0, &Job { grower: 65_536, ..Job::new(1, &[]) }), Err(Refusal::Arguments));
    let long: Vec<u32> = (10..43).collect();
    assert_eq!(graph.add(0, &Job::new(1, &long)), Err(Refusal::Arguments));
    assert_eq!(graph.add(0, &Job::new(1, &long[..32])), Err(Refusal::UnknownName { place: 0 }));
    assert_eq!(graph.add(0, &Job::new(1, &[])), Ok(()));
    assert_eq!(graph.add(0, &Job::new(2, &[1, 9])), Err(Refusal::UnknownName { place: 1 }));
    assert_eq!(graph.add(0, &Job::new(1, &[])), Err(Refusal::NamePresent));
    for name in 2..5 {
        assert_eq!(graph.add(0, &Job::new(name, &[name - 1])), Ok(()));
    }
    assert_eq!(graph.add(0, &Job::new(5, &[])), Err(Refusal::Full));
}

#[test]
fn gets_and_finishes_that_are_refused() {
    let mut graph = fresh();
    assert_eq!(graph.finish(0, 1, Outcome::Good), Err(Refusal::NotHeld));
    assert_eq!(graph.add(0, &Job::new(1, &[])), Ok(()));
    assert_eq!(graph.post_add(1, &Job::new(2, &[])), Ok(()));
    assert_eq!(graph.get(1), Err(Refusal::HalfDone));
    assert_eq!(graph.get(0), Ok(Some(handed_out(0, 1))));
    assert_eq!(graph.get(0), Err(Refusal::Holding));
    assert_eq!(graph.finish(0, 2, Outcome::Good), Err(Refusal::NotHeld));
}

#[test]
fn damage_is_found() {
    let mut graph = fresh();
    assert_eq!(graph.add(0, &Job::new(1, &[])), Ok(()));
    graph.tables().jobs[LABEL] = 3;
    assert_eq!(graph.get(0), Err(Refusal::Damaged));
    assert_eq!(graph.totals(), Err(Refusal::Damaged));
    graph.tables().jobs[0] = 5;
    assert_eq!(graph.get(0), Err(Refusal::Size));
}

/// Jobs with these names and no lists.
fn jobs(names: std::ops::Range<u32>) -> Vec<Job> {
    names.map(|name| Job::new(name, &[])).collect()
}

#[test]
fn sheets_with_refused_entries() {
    let mut graph = fresh();
    let sheet = [
        Job::new(1, &[]),
        Job { class: 16, ..Job::new(2, &[]) },
        Job::new(2, &[1, 9]),
        Job::new(1, &[]),
        Job::new(2, &[1]),
        Job::new(3, &[1, 2]),
        Job::new(4, &[3]),
        Job::new(4, &[]),
        Job::new(5, &[]),
    ];
    let answers = vec![
        Ok(()),
        Err(Refusal::Arguments),
        Err(Refusal::UnknownName { place: 1 }),
        Err(Refusal::NamePresent),
        Ok(()),
        Ok(()),
        Err(Refusal::Full),
        Ok(()),
        Err(Refusal::Full),
    ];
    assert_eq!(graph.clone().add_all(1, &sheet), Ok(answers.clone()));
    assert_eq!(graph.add_sheet(0, &sheet), Ok(answers));
    assert_eq!(graph.get(0), Ok(Some(handed_out(0, 1))));
    assert_eq!(graph.add_sheet(0, &[]), Ok(vec![]), "a holder may call, and no entries are nothing to do");
    assert_eq!(graph.finish(0, 1, Outcome::Good), Ok(()));
}

#[test]
fn sheets_that_are_turned_away() {
    let mut graph = fresh();
    assert_eq!(graph.add_sheet(2, &jobs(0..65)), Err(Refusal::Worker));
    assert_eq!(graph.post_add(1, &Job::new(9, &[])), Ok(()));
    assert_eq!(graph.add_sheet(1, &jobs(0..65)), Err(Refusal::HalfDone));
    assert_eq!(graph.add_all(1, &[]), Err(Refusal::HalfDone));
    let before = graph.words().map(<[u32]>::to_vec);
    assert_eq!(graph.add_sheet(0, &jobs(0..65)), Err(Refusal::Entries));
    assert_eq!(graph.words().map(<[u32]>::to_vec), before);
    assert_eq!(Refusal::Entries.to_string(), "more entries than one call takes");
}

#[test]
fn more_jobs_than_one_call_takes() {
    let mut graph = Graph::create(Sizes { jobs: 200, arcs: 0, bits: 8, workers: 1 }).expect("within the limits");
    let answers = graph.add_all(0, &jobs(0..201)).expect("the worker is idle");
    assert_eq!(answers.len(), 201);
    assert!(answers[..200].iter().all(Result::is_ok));
    assert_eq!(answers[200], Err(Refusal::Full));
    assert_eq!(graph.get(0), Ok(Some(handed_out(0, 0))));
    assert_eq!(graph.totals().map(|totals| totals.unexecuted.jobs), Ok(199));
}

/// The label of job 0 is off its range, which the second job's link meets: what follows gets 3, in later calls too.
#[test]
fn damage_in_the_middle_of_many_jobs() {
    let mut graph = Graph::create(Sizes { jobs: 200, arcs: 1, bits: 8, workers: 1 }).expect("within the limits");
    assert_eq!(graph.add(0, &Job::new(1_000, &[])), Ok(()));
    graph.tables().jobs[LABEL] = 3;
    let mut all = jobs(0..100);
    all[1].prerequisites.push(1_000);
    let answers = graph.add_all(0, &all).expect("the first call is not turned away");
    assert_eq!(answers[..2], [Ok(()), Err(Refusal::Stopped)]);
    assert_eq!(answers[2..], vec![Err(Refusal::HalfDone); 98]);
    graph.tables().jobs[LABEL] = 0;
    assert_eq!(graph.run(0), Ok(()));
    assert_eq!(graph.add_all(0, &all[2..]), Ok(vec![Ok(()); 98]));
}

/// A 9 that changed nothing is no stop: an add, and each entry of a sheet, with more arcs reserved than there are.
#[test]
fn damage_before_the_first_step() {
    let mut graph = fresh();
    let reserved = graph.tables().arcs[0];
    graph.tables().arcs[0] = graph.sizes().arcs + 1;
    let before = graph.words().map(<[u32]>::to_vec);
    assert_eq!(graph.add(0, &Job::new(1, &[])), Err(Refusal::Damaged));
    assert_eq!(graph.add_sheet(0, &jobs(1..3)), Ok(vec![Err(Refusal::Damaged); 2]));
    assert_eq!(graph.words().map(<[u32]>::to_vec), before);
    graph.tables().arcs[0] = reserved;
    assert_eq!(graph.add_sheet(0, &jobs(1..3)), Ok(vec![Ok(()); 2]));
}

/// An arc that is followed by itself: a finish ends with 9, as its steps do, once the dependent's count is 0.
#[test]
fn a_finish_whose_arcs_run_in_a_circle() {
    let mut graph = fresh();
    assert_eq!(graph.add_sheet(0, &[Job::new(1, &[]), Job::new(2, &[1])]), Ok(vec![Ok(()), Ok(())]));
    assert_eq!(graph.get(0), Ok(Some(handed_out(0, 1))));
    graph.tables().arcs[2] = 0;
    // The remaining count of job 1.
    graph.tables().jobs[COUNT + JOB_WORDS] = 32;
    assert_eq!(graph.finish(0, 1, Outcome::Good), Err(Refusal::Stopped));
    assert_eq!(graph.held(0), Ok(Holding { job: None, call: Some(HalfDone::Finish) }));
}

#[test]
fn a_district_has_minutes_of_its_own() {
    let mut graph = fresh();
    let fixed: Vec<u32> = (0..CLASSES as u32).map(minutes).collect();
    assert_eq!(graph.minutes().map(|minutes| minutes.to_vec()), Ok(fixed));
    assert_eq!(graph.post_add(1, &Job { class: 15, ..Job::new(9, &[]) }), Ok(()));
    assert_eq!(graph.load_minutes(&DISTRICT), Ok(()), "an add that has not entered does not hinder it");
    assert_eq!(graph.load_minutes(&DISTRICT), Ok(()), "nor does a load before it");
    assert_eq!(graph.minutes(), Ok(DISTRICT));
    for (name, class) in [(1, 0), (2, 3)] {
        assert_eq!(graph.add(0, &Job { class, ..Job::new(name, &[]) }), Ok(()));
    }
    assert_eq!(graph.run(1), Ok(()));
    assert_eq!(graph.get(0), Ok(Some(handed_out(2, 9))), "the most minutes first");
    assert_eq!(graph.finish(0, 9, Outcome::Good), Ok(()));
    assert_eq!(graph.get(1), Ok(Some(handed_out(1, 2))));
    let totals = graph.totals().expect("the graph is not damaged");
    assert_eq!(totals.unexecuted, Sum { jobs: 1, minutes: 5 });
    assert_eq!(totals.executing, Sum { jobs: 1, minutes: 20 });
    assert_eq!(totals.finished, Sum { jobs: 1, minutes: 1_440 });
    let records = [(2, 15), (0, 0), (1, 3)].map(|(label, class)| JobRecord { label, class });
    assert_eq!(totals_by_minutes(&records, &DISTRICT), Ok(totals));
}

#[test]
fn loads_that_are_refused() {
    let mut graph = fresh();
    let before = graph.words().map(<[u32]>::to_vec);
    let mut wrong: Vec<Vec<u32>> = vec![vec![], DISTRICT[..15].to_vec(), [&DISTRICT[..], &[1_441]].concat()];
    for (class, value) in [(0, 0), (0, 10), (7, 40), (7, 60), (15, 480), (15, 1_441), (15, u32::MAX)] {
        let mut values = DISTRICT.to_vec();
        values[class] = value;
        wrong.push(values);
    }
    for values in &wrong {
        assert_eq!(graph.load_minutes(values), Err(Refusal::Minutes), "{values:?}");
        assert_eq!(totals_by_minutes(&[], values).map(drop), Err(Refusal::Minutes), "{values:?}");
    }
    assert_eq!(graph.words().map(<[u32]>::to_vec), before);
    assert_eq!(graph.add(0, &Job::new(1, &[])), Ok(()));
    assert_eq!(graph.load_minutes(&wrong[0]), Err(Refusal::Minutes));
    let before = graph.words().map(<[u32]>::to_vec);
    assert_eq!(graph.load_minutes(&DISTRICT), Err(Refusal::Entered));
    assert_eq!(graph.words().map(<[u32]>::to_vec), before);
    // The jobs made.
    graph.tables().jobs[4] = 5;
    assert_eq!(graph.load_minutes(&DISTRICT), Err(Refusal::Damaged));
    graph.tables().jobs[0] = 5;
    assert_eq!(graph.load_minutes(&wrong[0]), Err(Refusal::Size));
    assert_eq!(graph.minutes(), Err(Refusal::Size));
}

#[test]
fn damaged_minutes() {
    let mut graph = fresh();
    // The minutes of class 7 are those of class 6.
    graph.tables().jobs[5 + 7] = 15;
    assert_eq!(graph.minutes(), Err(Refusal::Damaged));
    assert_eq!(graph.totals(), Err(Refusal::Damaged));
    assert_eq!(graph.add(0, &Job::new(1, &[])), Ok(()), "no other call reads them");
    assert_eq!(graph.get(0), Ok(Some(handed_out(0, 1))));
    let mut graph = fresh();
    graph.tables().jobs[5 + 7] = 0;
    assert_eq!(graph.load_minutes(&DISTRICT), Ok(()), "nor does a load read them");
    assert_eq!(graph.minutes(), Ok(DISTRICT));
}

/// Job 3 needs 1, which fails, and 2; job 4 needs 3.
#[test]
fn a_failed_job_spoils_those_that_need_it() {
    let mut graph = fresh();
    let jobs = [Job::new(1, &[]), Job { class: 2, ..Job::new(2, &[]) }, Job::new(3, &[1, 2]), Job::new(4, &[3])];
    assert_eq!(graph.add_sheet(0, &jobs), Ok(vec![Ok(()); 4]));
    assert_eq!(graph.get(0), Ok(Some(handed_out(1, 2))));
    assert_eq!(graph.finish(0, 2, Outcome::Good), Ok(()));
    assert_eq!(graph.get(0), Ok(Some(handed_out(0, 1))));
    assert_eq!(graph.finish(0, 1, Outcome::Failed), Ok(()));
    let spoiled = HandedOut { job: 2, name: 3, spoiled: true };
    assert_eq!(graph.get(1), Ok(Some(spoiled)));
    assert_eq!(graph.held(1), Ok(Holding { job: Some(spoiled), call: None }));
    let before = graph.words().map(<[u32]>::to_vec);
    assert_eq!(graph.finish(1, 4, Outcome::Good), Err(Refusal::NotHeld), "11 comes before 19");
    assert_eq!(graph.finish(1, 3, Outcome::Good), Err(Refusal::GoodForSpoiled));
    assert_eq!(graph.post_finish(1, 3, Outcome::Good), Err(Refusal::GoodForSpoiled));
    assert_eq!(graph.words().map(<[u32]>::to_vec), before);
    assert_eq!(graph.post_finish(1, 3, Outcome::Failed), Ok(()));
    assert_eq!(graph.run(1), Ok(()));
    assert_eq!(graph.get(0), Ok(Some(HandedOut { job: 3, name: 4, spoiled: true })));
    assert_eq!(graph.finish(0, 4, Outcome::Failed), Ok(()));
    assert_eq!(graph.drained(), Ok(true));
    assert_eq!(graph.totals().map(|totals| totals.finished.jobs), Ok(4), "the board counts them as finished");
}

/// A job added after its prerequisite has failed is spoiled too.
#[test]
fn a_job_added_later_is_spoiled() {
    let mut graph = fresh();
    assert_eq!(graph.add(0, &Job::new(1, &[])), Ok(()));
    assert_eq!(graph.get(0), Ok(Some(handed_out(0, 1))));
    assert_eq!(graph.finish(0, 1, Outcome::Failed), Ok(()));
    assert_eq!(graph.add_sheet(0, &[Job::new(2, &[1]), Job::new(3, &[])]), Ok(vec![Ok(()); 2]));
    assert_eq!(graph.get(0), Ok(Some(HandedOut { job: 1, name: 2, spoiled: true })));
    assert_eq!(graph.get(1), Ok(Some(handed_out(2, 3))));
}

/// Outcome, mark and note are 0 or 1.
#[test]
fn damaged_outcomes_marks_and_notes() {
    let mut graph = fresh();
    assert_eq!(graph.add_sheet(0, &[Job::new(1, &[]), Job::new(2, &[])]), Ok(vec![Ok(()); 2]));
    graph.tables().jobs[MARK] = 2;
    assert_eq!(graph.get(0), Err(Refusal::Damaged));
    graph.tables().jobs[MARK] = 0;
    assert_eq!(graph.get(0), Ok(Some(handed_out(0, 1))));
    graph.tables().jobs[MARK] = 2;
    assert_eq!(graph.held(0), Err(Refusal::Damaged));
    assert_eq!(graph.finish(0, 2, Outcome::Good), Err(Refusal::NotHeld), "11 comes before 9");
    assert_eq!(graph.finish(0, 1, Outcome::Good), Err(Refusal::Damaged), "9 comes before 19");
    assert_eq!(graph.finish(0, 1, Outcome::Failed), Err(Refusal::Damaged));
    graph.tables().jobs[MARK] = 0;
    assert_eq!(graph.finish(0, 1, Outcome::Good), Ok(()));
    graph.tables().jobs[OUTCOME] = 2;
    assert_eq!(graph.add(0, &Job::new(3, &[1])), Err(Refusal::Stopped), "a link reads it");
    graph.tables().jobs[OUTCOME] = 1;
    assert_eq!(graph.run(0), Ok(()));
    graph.tables().workers[NOTE] = 2;
    assert_eq!((graph.get(0), graph.held(0)), (Err(Refusal::Damaged), Err(Refusal::Damaged)));
    assert_eq!(graph.drained(), Err(Refusal::Damaged));
    graph.tables().workers[NOTE] = 1;
    assert_eq!(graph.get(0), Ok(Some(handed_out(1, 2))), "an idle worker's note is in its range");
    assert_eq!(graph.get(1), Ok(Some(HandedOut { job: 2, name: 3, spoiled: true })));
}
