//! A host in Rust that loads a district's minutes: reads them from a file such as `examples/district.minutes`, adds
//! five jobs, and lets a worker take and finish them. It prints what `examples/district.c` prints.
//!
//! usage: district FILE
//!
//! A line that cannot be used is told with the file and its number; exit status 1.

use std::{env, error::Error, fs, process::ExitCode};

use taskgraph::{raw::MAX_MINUTES, Graph, Job, Outcome, Sizes, TaskGraph, Totals, CLASSES};

/// Minutes by class, and the line on which each stands.
type District = [Option<(u32, usize)>; CLASSES];

/// A number of decimal digits alone.
fn number(word: &str) -> Option<u32> {
    if word.bytes().all(|byte| byte.is_ascii_digit()) {
        word.parse().ok()
    } else {
        None
    }
}

/// Takes a line, which says the minutes of a class or nothing.
fn take_line(district: &mut District, line: usize, text: &str) -> Result<(), String> {
    let said = text.split('#').next().unwrap_or("");
    let words: Vec<&str> = said.split_ascii_whitespace().collect();
    let numbers: Vec<u32> = words.iter().filter_map(|word| number(word)).collect();
    let (class, minutes) = match numbers[..] {
        _ if words.is_empty() => return Ok(()),
        [class, minutes] if words.len() == 2 => (class, minutes),
        _ => return Err("not a class and its minutes".into()),
    };
    let place = district.get_mut(class as usize).ok_or_else(|| format!("class {class} is above {}", CLASSES - 1))?;
    if place.is_some() {
        return Err(format!("class {class} stands twice"));
    }
    if !(1..=MAX_MINUTES).contains(&minutes) {
        return Err(format!("{minutes} minutes are not 1 to {MAX_MINUTES}"));
    }
    *place = Some((minutes, line));
    Ok(())
}

/// The minutes of each class.
fn read_district(file: &str) -> Result<[u32; CLASSES], String> {
    let text = fs::read_to_string(file).map_err(|error| format!("{file}: {error}"))?;
    let at = |line: usize, reason: String| format!("{file}:{line}: {reason}");
    let mut district = District::default();
    for (number, text) in text.lines().enumerate() {
        take_line(&mut district, number + 1, text).map_err(|reason| at(number + 1, reason))?;
    }
    let mut minutes = [0; CLASSES];
    for class in 0..CLASSES {
        let (value, line) = district[class].ok_or_else(|| format!("{file}: class {class} is missing"))?;
        if class > 0 && value <= minutes[class - 1] {
            return Err(at(line, format!("class {class} has no more minutes than the class below")));
        }
        minutes[class] = value;
    }
    Ok(minutes)
}

fn print_board(totals: Totals) {
    let Totals { unexecuted, executing, finished } = totals;
    let labels = [("unexecuted", unexecuted), ("executing", executing), ("finished", finished)];
    println!("{}", labels.map(|(label, sum)| format!("{label} {} {}", sum.jobs, sum.minutes)).join(" "));
}

fn run(file: &str) -> Result<(), Box<dyn Error>> {
    let minutes = read_district(file)?;
    let mut graph = Graph::create(Sizes { jobs: 16, arcs: 16, bits: 2, workers: 1 })?;
    graph.load_minutes(&minutes)?;
    let job = |name, class, list: &[u32]| Job { class, ..Job::new(name, list) };
    let jobs = [job(1, 0, &[]), job(2, 15, &[]), job(3, 7, &[]), job(4, 3, &[]), job(5, 7, &[2])];
    for answer in graph.add_sheet(0, &jobs)? {
        answer?;
    }
    print_board(graph.totals()?);
    let mut handed = 0;
    while let Some(held) = graph.get(0)? {
        println!("{handed} {} {}", held.name, minutes[jobs[held.job as usize].class as usize]);
        graph.finish(0, held.name, Outcome::Good)?;
        handed += 1;
    }
    print_board(graph.totals()?);
    Ok(())
}

fn main() -> ExitCode {
    let arguments: Vec<String> = env::args().skip(1).collect();
    let file = match &arguments[..] {
        [file] => file,
        _ => {
            eprintln!("usage: district FILE");
            return ExitCode::from(2);
        }
    };
    match run(file) {
        Ok(()) => ExitCode::SUCCESS,
        Err(error) => {
            eprintln!("{error}");
            ExitCode::FAILURE
        }
    }
}
