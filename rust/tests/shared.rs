//! A graph that several processes share, and what is left when one of them dies.
//!
//! The test program starts itself: a process of it takes the part that an environment variable names.
#![cfg(all(target_os = "linux", target_pointer_width = "64"))]

use std::{
    env, fs,
    os::unix::process::ExitStatusExt,
    path::{Path, PathBuf},
    process::{self, Child, Command, Stdio},
};

use taskgraph::{
    HalfDone, HandedOut, Holding, Job, Outcome, Progress, Refusal, SharedError, SharedGraph, Sizes, TaskGraph,
};

const SIZES: Sizes = Sizes { jobs: 400, arcs: 2_000, bits: 4, workers: 4 };

/// The signal by which a process ends that aborts.
const ABORTED: i32 = 6;

/// A job that is not spoiled.
fn handed_out(job: u32, name: u32) -> HandedOut {
    HandedOut { job, name, spoiled: false }
}

/// A file of its own, removed at the end.
struct TestFile(PathBuf);

impl TestFile {
    fn new(test: &str) -> TestFile {
        let path = env::temp_dir().join(format!("taskgraph-{}-{test}", process::id()));
        // One that an earlier process of this number left.
        let _ = fs::remove_file(&path);
        TestFile(path)
    }

    fn create(&self) -> SharedGraph {
        SharedGraph::create(&self.0, SIZES).expect("the file can be made")
    }

    /// Starts a process that takes a part.
    fn start(&self, part: &str, worker: u32) -> Child {
        let mut command = Command::new(env::current_exe().expect("this program has a path"));
        command.args(["--exact", "a_part", "--ignored"]).stdout(Stdio::null()).stderr(Stdio::null());
        command.env("TEST_PART", part).env("TEST_FILE", &self.0).env("TEST_WORKER", worker.to_string());
        command.spawn().expect("a process can be started")
    }

    /// Runs a part at whose end the process kills itself.
    fn run_to_death(&self, part: &str) {
        let status = self.start(part, 1).wait().expect("the process ends");
        assert_eq!(status.signal(), Some(ABORTED), "{part}: {status}");
    }
}

impl Drop for TestFile {
    fn drop(&mut self) {
        let _ = fs::remove_file(&self.0);
    }
}

/// What a process that a test started does.
#[test]
#[ignore = "the other tests start it"]
fn a_part() {
    let part = env::var("TEST_PART").expect("a part");
    let worker = env::var("TEST_WORKER").expect("a worker").parse().expect("a number");
    let graph = SharedGraph::open(env::var("TEST_FILE").expect("a file")).expect("it opens");
    match part.as_str() {
        "add and drain" => add_and_drain(&graph, worker),
        "die between steps" => {
            let mut locked = graph.lock().expect("the lock");
            assert_eq!(locked.post_add(worker, &Job::new(2, &[1])), Ok(()));
            assert_eq!(locked.step(worker), Ok(Progress::GoingOn));
            drop(locked);
            process::abort();
        }
        "die with the lock" => {
            let locked = graph.lock().expect("the lock");
            assert_eq!(locked.totals().map(|totals| totals.unexecuted.jobs), Ok(1));
            process::abort();
        }
        "die inside a call" => {
            let mut locked = graph.lock().expect("the lock");
            let _half_written = locked.tables();
            process::abort();
        }
        _ => panic!("no such part: {part}"),
    }
}

/// Adds a hundred jobs, each needing the one before, and takes and finishes jobs until none is ready. The adds are run
/// whole, in steps with the lock free between, or by sheets.
fn add_and_drain(graph: &SharedGraph, worker: u32) {
    let name = |number: u32| 1_000 * worker + number;
    let job = |number: u32| {
        let before: Vec<u32> = number.checked_sub(1).map(name).into_iter().collect();
        Job::new(name(number), &before)
    };
    let jobs: Vec<Job> = (0..100).map(job).collect();
    match worker % 3 {
        0 => jobs.iter().for_each(|job| graph.add(worker, job).expect("the add is accepted")),
        1 => jobs.iter().for_each(|job| {
            graph.lock().expect("the lock").post_add(worker, job).expect("the post is accepted");
            graph.run(worker).expect("the add is accepted");
        }),
        _ => assert_eq!(graph.add_all(worker, &jobs).expect("the worker is idle"), vec![Ok(()); 100]),
    }
    while let Some(job) = graph.get(worker).expect("the worker holds no job") {
        graph.finish(worker, job.name, Outcome::Good).expect("the worker holds the job");
    }
}

#[test]
fn processes_share_a_graph() {
    let file = TestFile::new("shared");
    let graph = file.create();
    let processes: Vec<Child> = (0..4).map(|worker| file.start("add and drain", worker)).collect();
    for mut process in processes {
        assert!(process.wait().expect("the process ends").success());
    }
    // The last jobs of a process may wait for one that another held, so what is left is drained here.
    while let Some(job) = graph.get(0).expect("the worker holds no job") {
        graph.finish(0, job.name, Outcome::Good).expect("the worker holds the job");
    }
    assert!(graph.drained().expect("the graph is not damaged"));
    let totals = graph.totals().expect("the graph is not damaged");
    assert_eq!((totals.unexecuted.jobs, totals.executing.jobs, totals.finished.jobs), (0, 0, 400));
}

#[test]
fn threads_share_a_graph() {
    let file = TestFile::new("threads");
    let graph = file.create();
    std::thread::scope(|scope| {
        for worker in 0..4 {
            let graph = &graph;
            scope.spawn(move || add_and_drain(graph, worker));
        }
    });
    assert_eq!(graph.lock().expect("the lock").words()[0][4], 400, "all jobs were made");
}

#[test]
fn a_call_left_half_done_is_stepped_on() {
    let file = TestFile::new("half-done");
    let graph = file.create();
    graph.add(0, &Job::new(1, &[])).expect("the add is accepted");
    file.run_to_death("die between steps");
    let refused = graph.get(1).expect_err("the worker's call is half done");
    assert!(matches!(refused, SharedError::Refused(Refusal::HalfDone)));
    assert_eq!(graph.get(0).expect("worker 0 is served"), Some(handed_out(0, 1)));
    let held = graph.held(1).expect("worker 1 is one of four");
    assert_eq!(held, Holding { job: None, call: Some(HalfDone::Add { name: 2 }) });
    graph.run(1).expect("the add goes on");
    graph.finish(0, 1, Outcome::Good).expect("worker 0 holds job 1");
    assert_eq!(graph.get(1).expect("worker 1 is idle"), Some(handed_out(1, 2)));
}

#[test]
fn sheets_of_a_shared_graph() {
    let file = TestFile::new("sheets");
    let graph = file.create();
    let sheet = [Job::new(1, &[]), Job::new(2, &[9]), Job::new(3, &[1])];
    let answers = graph.add_sheet(0, &sheet).expect("worker 0 is idle");
    assert_eq!(answers, [Ok(()), Err(Refusal::UnknownName { place: 0 }), Ok(())]);
    let many = vec![Job::new(4, &[]); 65];
    assert!(matches!(graph.add_sheet(0, &many), Err(SharedError::Refused(Refusal::Entries))));
    let answers = graph.add_all(0, &many).expect("worker 0 is idle");
    assert_eq!((answers.len(), answers[0], answers[64]), (65, Ok(()), Err(Refusal::NamePresent)));
    assert!(matches!(graph.add_all(4, &many), Err(SharedError::Refused(Refusal::Worker))));
}

/// What one process loads stands for all, until a job enters.
#[test]
fn minutes_of_a_shared_graph() {
    let file = TestFile::new("minutes");
    let graph = file.create();
    let district: [u32; 16] = std::array::from_fn(|class| 10 + 7 * class as u32);
    let other = SharedGraph::open(&file.0).expect("the file is a graph");
    graph.load_minutes(&district).expect("no job has entered");
    assert_eq!(other.minutes().expect("the graph is whole"), district);
    assert!(matches!(other.load_minutes(&[1; 16]), Err(SharedError::Refused(Refusal::Minutes))));
    other.add(0, &Job { class: 15, ..Job::new(1, &[]) }).expect("it is accepted");
    assert!(matches!(graph.load_minutes(&district), Err(SharedError::Refused(Refusal::Entered))));
    assert_eq!(graph.totals().expect("the graph is whole").unexecuted.minutes, 115);
}

/// A process that acts for a worker anew learns that the job it holds is spoiled.
#[test]
fn a_spoiled_job_of_a_shared_graph() {
    let file = TestFile::new("spoiled");
    let graph = file.create();
    graph.add_all(0, &[Job::new(1, &[]), Job::new(2, &[1])]).expect("worker 0 is idle");
    assert_eq!(graph.get(0).expect("worker 0 is idle"), Some(handed_out(0, 1)));
    graph.finish(0, 1, Outcome::Failed).expect("worker 0 holds job 1");
    let spoiled = Some(HandedOut { job: 1, name: 2, spoiled: true });
    assert_eq!(graph.get(1).expect("worker 1 is idle"), spoiled);
    let other = SharedGraph::open(&file.0).expect("the file is a graph");
    assert_eq!(other.held(1).expect("worker 1 is one of four").job, spoiled);
    let refused = other.finish(1, 2, Outcome::Good).expect_err("the job is spoiled");
    assert!(matches!(refused, SharedError::Refused(Refusal::GoodForSpoiled)));
    other.finish(1, 2, Outcome::Failed).expect("worker 1 holds job 2");
}

#[test]
fn a_lock_that_died_before_a_call_loses_nothing() {
    let file = TestFile::new("died-before");
    let graph = file.create();
    graph.add(0, &Job::new(1, &[])).expect("the add is accepted");
    let before = graph.lock().expect("the lock").words().map(<[u32]>::to_vec);
    file.run_to_death("die with the lock");
    assert_eq!(graph.lock().expect("the lock is free").words().map(<[u32]>::to_vec), before);
    assert_eq!(graph.get(0).expect("worker 0 is served"), Some(handed_out(0, 1)));
}

#[test]
fn a_lock_that_died_inside_a_call_is_told() {
    let file = TestFile::new("died-inside");
    let graph = file.create();
    file.run_to_death("die inside a call");
    // Each time, and in every process.
    assert!(matches!(graph.get(0), Err(SharedError::Torn)));
    assert!(matches!(graph.totals(), Err(SharedError::Torn)));
    let other = SharedGraph::open(&file.0).expect("the file opens");
    assert!(matches!(other.add(0, &Job::new(1, &[])), Err(SharedError::Torn)));
}

#[test]
fn a_second_lock_of_one_thread_is_refused() {
    let file = TestFile::new("twice");
    let graph = file.create();
    let first = graph.lock().expect("the lock");
    assert!(matches!(graph.lock(), Err(SharedError::System(_))));
    drop(first);
    assert!(graph.lock().is_ok());
}

#[test]
fn files_that_are_no_graph() {
    let file = TestFile::new("foreign");
    assert!(matches!(SharedGraph::open(&file.0), Err(SharedError::System(_))), "there is no such file");
    let graph = file.create();
    assert!(matches!(SharedGraph::create(&file.0, SIZES), Err(SharedError::System(_))), "there is one already");
    drop(graph);
    let whole = fs::read(&file.0).expect("the file can be read");
    let mut other_number = whole.clone();
    other_number[15] = b'1';
    let mut other_sizes = whole.clone();
    other_sizes[16] = 0;
    for bytes in [&[], &whole[..255], &whole[..whole.len() - 4], &other_number[..], &other_sizes[..]] {
        fs::write(&file.0, bytes).expect("the file can be written");
        assert!(matches!(SharedGraph::open(&file.0), Err(SharedError::Foreign)));
    }
    let off = Sizes { workers: 17, ..SIZES };
    let refused = SharedGraph::create(Path::new("nowhere/graph"), off);
    assert!(matches!(refused, Err(SharedError::Refused(Refusal::Size))));
    assert!(matches!(SharedGraph::create(Path::new("/"), SIZES), Err(SharedError::System(_))));
}
