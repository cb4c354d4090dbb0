//! Other task graphs, as programs of their own: each reads a graph, builds and drains it several times, and
//! prints the best time in nanoseconds a job. The library finds prerequisites by name, and so does graphlib;
//! oneTBB has no names, so it is timed with a hash table of them and with none.

use std::{
    env, fs,
    io::Write,
    path::{Path, PathBuf},
    process::{Command, Stdio},
};

use bench_graph::shapes::Shape;

pub struct Peer {
    pub name: &'static str,
    /// The program and its arguments, or why there is none.
    pub command: Result<Vec<PathBuf>, String>,
}

/// The peer that whole calls and sheets are measured beside: it has no names to look up.
pub const BY_PLACE: &str = "oneTBB, by place";

pub fn all() -> [Peer; 3] {
    let flow_graph = flow_graph();
    let finding = |by: &str| flow_graph.clone().map(|program| vec![program, by.into()]);
    [
        Peer { name: "oneTBB, by name", command: finding("names") },
        Peer { name: BY_PLACE, command: finding("places") },
        Peer { name: "Python graphlib", command: graphlib() },
    ]
}

fn source(name: &str) -> PathBuf {
    Path::new(env!("CARGO_MANIFEST_DIR")).join("peers").join(name)
}

fn succeeds(command: &mut Command) -> bool {
    let quiet = command.stdin(Stdio::null()).stdout(Stdio::null()).stderr(Stdio::null());
    quiet.status().map_or(false, |status| status.success())
}

/// Builds the C++ program, beside this one.
fn flow_graph() -> Result<PathBuf, String> {
    let program = env::current_exe().map_err(|error| error.to_string())?.with_file_name("flow_graph");
    let mut build = Command::new("g++");
    build.args(["-std=c++17", "-O2", "-o"]).arg(&program).arg(source("flow_graph.cpp")).arg("-ltbb");
    if succeeds(&mut build) {
        Ok(program)
    } else {
        Err("it needs g++ and Debian's libtbb-dev".into())
    }
}

fn graphlib() -> Result<Vec<PathBuf>, String> {
    if succeeds(Command::new("python3").args(["-c", "import graphlib"])) {
        Ok(vec!["python3".into(), source("graphlib_bench.py")])
    } else {
        Err("it needs Python 3.9 or newer".into())
    }
}

impl Peer {
    /// The time for a graph; `None` where the peer is left out.
    pub fn nanoseconds_a_job(&self, shape: &Shape) -> Option<Result<f64, String>> {
        let command = self.command.as_ref().ok()?;
        Some(run(command, &shape.text()))
    }
}

fn run(command: &[PathBuf], graph: &str) -> Result<f64, String> {
    let file = env::temp_dir().join(format!("taskgraph-bench-{}", std::process::id()));
    let written = fs::File::create(&file).and_then(|mut file| file.write_all(graph.as_bytes()));
    written.map_err(|error| error.to_string())?;
    let output = Command::new(&command[0]).args(&command[1..]).arg(&file).output();
    // The file is of no more use, whatever came of it.
    let _ = fs::remove_file(&file);
    let output = output.map_err(|error| error.to_string())?;
    let text = String::from_utf8_lossy(&output.stdout);
    text.trim().parse().map_err(|_| String::from_utf8_lossy(&output.stderr).into_owned())
}
