//! Random sheets through all forms: what is read, packed, shown and accepted is what the library says.

use compare_sheets::{
    inputs,
    random::{seed, Random},
};
use jobsheet::{
    arguments::{parse, Asked},
    bytes, csv,
    day::Day,
    fault::{Elsewhere, Fault, Kind},
    judge,
    judge::LARGEST,
    picture::{self, Drawn},
    read,
    summary::{self, Summary},
    terminal::Progress,
    text, Form, Judged, Sheet,
};
use taskgraph::{raw, write_sheet, Graph, Job, Refusal, Room, Sizes, TaskGraph};

/// How many sheets each test takes.
const SHEETS: u64 = 2_000;

fn each(test: &str, sheets: u64, mut check: impl FnMut(&mut Random)) {
    println!("{test}: {sheets} sheets, seed {}", seed());
    for number in 0..sheets {
        check(&mut Random::nth(seed(), test, number));
    }
}

/// A job that can be packed, of any values.
fn any_job(random: &mut Random) -> Job {
    let entry = inputs::entry(random);
    let prerequisites = entry.names[..entry.count as usize].to_vec();
    Job { name: entry.name, prerequisites, class: entry.class, grower: entry.grower }
}

fn any_jobs(random: &mut Random) -> Vec<Job> {
    (0..random.below(20)).map(|_| any_job(random)).collect()
}

/// Jobs with few names, so that most are accepted, and each refusal comes now and then.
fn near_jobs(random: &mut Random, jobs: usize) -> Vec<Job> {
    let job = |place: usize, random: &mut Random| {
        let mut job = Job::new(place as u32, &[]);
        let least = place.saturating_sub(6);
        for _ in 0..random.below(4).min(place) {
            job.prerequisites.push((least + random.below(6)) as u32);
        }
        job.prerequisites.sort_unstable();
        if !random.once_in(8) {
            job.prerequisites.dedup();
        }
        if random.once_in(12) {
            job.name = random.below(jobs) as u32;
        }
        if random.once_in(40) {
            job.prerequisites = (0..random.pick(&[32, 33, 40])).map(|_| random.below(jobs) as u32).collect();
        }
        job.class = if random.once_in(30) { random.pick(&inputs::CLASSES) } else { random.below(16) as u32 };
        job.grower = if random.once_in(30) { random.pick(&inputs::GROWERS) } else { random.below(5) as u32 };
        job
    };
    (0..jobs).map(|place| job(place, random)).collect()
}

/// A number with zeros before it now and then.
fn digits(random: &mut Random, value: u32) -> String {
    format!("{}{value}", "0".repeat(if random.once_in(10) { random.below(12) } else { 0 }))
}

fn blank(random: &mut Random) -> &'static str {
    random.pick(&[" ", " ", " ", "  ", "\t", " \t "])
}

/// A word, perhaps in capitals.
fn word(random: &mut Random, word: &str) -> String {
    match random.below(4) {
        0 => word.to_uppercase(),
        1 => word[..1].to_uppercase() + &word[1..],
        _ => word.into(),
    }
}

/// Any spelling of a job's line.
fn any_line(random: &mut Random, job: &Job) -> String {
    let mut line = if random.once_in(5) { blank(random).to_string() } else { String::new() };
    line += &digits(random, job.name);
    let mut part = |random: &mut Random, name: &str, values: &[u32]| {
        line += blank(random);
        line += &word(random, name);
        for value in values {
            line += blank(random);
            line += &digits(random, *value);
        }
    };
    if !job.prerequisites.is_empty() {
        part(random, "needs", &job.prerequisites);
    }
    if job.class > 0 || random.once_in(4) {
        part(random, "class", &[job.class]);
    }
    if job.grower > 0 || random.once_in(4) {
        part(random, "grower", &[job.grower]);
    }
    line + random.pick(&["", "", "", " ", " # split", "#x needs 1", "\t#\u{f6}\u{3b1}"])
}

fn any_text(random: &mut Random, jobs: &[Job]) -> String {
    let end = random.pick(&["\n", "\r\n"]);
    let mut text = random.pick(&["", "", "\u{feff}"]).to_string();
    for job in jobs {
        while random.once_in(4) {
            text += random.pick(&["", "# a comment, 1 needs 2", "   ", "\t# x"]);
            text += end;
        }
        text += &any_line(random, job);
        text += end;
    }
    if random.once_in(3) {
        text.truncate(text.trim_end_matches(&['\r', '\n'][..]).len());
    }
    text
}

/// Any spelling of a table: its columns in any order, those left out that say nothing.
fn any_table(random: &mut Random, jobs: &[Job]) -> String {
    let mut columns = vec!["name"];
    let says = |column: &str, job: &Job| match column {
        "needs" => !job.prerequisites.is_empty(),
        "class" => job.class > 0,
        _ => job.grower > 0,
    };
    for column in ["needs", "class", "grower"] {
        if jobs.iter().any(|job| says(column, job)) || random.once_in(2) {
            columns.insert(random.below(columns.len() + 1), column);
        }
    }
    let separator = random.pick(&[",", ",", ";", "\t"]);
    let end = random.pick(&["\n", "\r\n"]);
    let header: Vec<String> = columns
        .iter()
        .map(|column| {
            let name = word(random, column);
            cell(random, name, separator)
        })
        .collect();
    let mut table = header.join(separator) + end;
    for job in jobs {
        while random.once_in(5) {
            table += &random.pick(&["", "# a comment", "SSS", "  ", "\"\"S", " # x"]).replace('S', separator);
            table += end;
        }
        let row: Vec<String> = columns.iter().map(|column| any_cell(random, column, job, separator)).collect();
        table += &row.join(separator);
        table += random.pick(&["", "", separator]);
        table += end;
    }
    table
}

fn any_cell(random: &mut Random, column: &str, job: &Job, separator: &str) -> String {
    let names: Vec<String> = job.prerequisites.iter().map(|name| digits(random, *name)).collect();
    let value = match column {
        "name" => digits(random, job.name),
        "needs" => names.join(if random.once_in(4) { "  " } else { " " }),
        "class" if job.class == 0 && random.once_in(2) => String::new(),
        "grower" if job.grower == 0 && random.once_in(2) => String::new(),
        "class" => digits(random, job.class),
        _ => digits(random, job.grower),
    };
    cell(random, value, separator)
}

/// A cell, perhaps in quotes or with spaces round it. A line of one column is not left empty: it would be no row.
fn cell(random: &mut Random, value: String, separator: &str) -> String {
    let quoted = if random.once_in(4) { format!("\"{value}\"") } else { value };
    match random.below(6) {
        0 => format!(" {quoted}"),
        1 if separator != "\t" => format!("{quoted}\t "),
        _ => quoted,
    }
}

fn jobs_of(sheet: &Sheet, told: &str) -> Vec<Job> {
    assert_eq!(sheet.faults, [], "{told}");
    sheet.jobs().expect("there is no fault")
}

#[test]
fn every_spelling_packs_to_the_librarys_bytes() {
    each("spellings", SHEETS, |random| {
        let jobs = any_jobs(random);
        let packed = write_sheet(&jobs).expect("the values are on their limits");
        let (text, table) = (any_text(random, &jobs), any_table(random, &jobs));
        for (content, form) in [(&text, Form::Text), (&table, Form::Csv)] {
            // A text may begin with a tab; what is packed never looks like one here, so no form need be said.
            let seen = Form::of(content.as_bytes());
            assert!(seen == Some(form) || jobs.is_empty(), "{seen:?} of {content:?}");
            let sheet = read(content.as_bytes(), form);
            assert_eq!(jobs_of(&sheet, content), jobs, "{content:?}");
            assert_eq!(sheet.packed(), Some(packed.clone()), "{content:?}");
        }
        let unpacked = bytes::read(&packed);
        assert_eq!(jobs_of(&unpacked, "bytes"), jobs);
        assert!(Form::of(&packed) == Some(Form::Bytes) || packed.is_empty());
        plain_spellings(&jobs);
    });
}

/// The plain spelling says the same, and is its own plain spelling.
fn plain_spellings(jobs: &[Job]) {
    let (text, table) = (text::write(jobs), csv::write(jobs));
    assert_eq!(jobs_of(&text::read(text.as_bytes()), &text), jobs);
    assert_eq!(jobs_of(&csv::read(table.as_bytes()), &table), jobs);
    assert_eq!(Form::of(table.as_bytes()), Some(Form::Csv));
    assert_eq!(text.lines().count(), jobs.len());
    let tidy = text.lines().all(|line| !line.is_empty() && !line.contains("  ") && line.trim() == line);
    assert!(tidy, "{text:?}");
}

fn judged_after(before: &[Job], sheet: &Sheet, sizes: Sizes) -> Judged {
    judge(&mut sheet.clone(), before, sizes, &Progress::silent()).expect("the sizes are within their limits")
}

fn judged(sheet: &Sheet, sizes: Sizes) -> Judged {
    judged_after(&[], sheet, sizes)
}

/// The faults of an entry.
fn faults_of(judged: &Judged, entry: usize) -> Vec<&Fault> {
    judged.faults.iter().filter(|fault| fault.entry == Some(entry)).collect()
}

#[test]
fn what_is_accepted_is_what_the_graph_accepts() {
    let mut met = [0; 20];
    let mut rooms = [0; 2];
    each("checks", SHEETS, |random| {
        let count = random.below(60) + 1;
        let jobs = near_jobs(random, count);
        let sizes = match random.below(3) {
            0 => Sizes { jobs: 1 + random.below(40) as u32, arcs: random.below(60) as u32, ..LARGEST },
            _ => LARGEST,
        };
        let (before, own) = jobs.split_at(if random.once_in(3) { random.below(count) } else { 0 });
        let mut graph = Graph::create(sizes).expect("the sizes are within their limits");
        let [all, answers] = [before, own].map(|part| graph.add_all(0, part).expect("the worker is idle"));
        let text = any_text(random, own);
        let sheet = text::read(text.as_bytes());
        assert_eq!(jobs_of(&sheet, &text), own);
        let judged = judged_after(before, &sheet, sizes);
        assert_eq!(judged.answers, answers.iter().copied().map(Some).collect::<Vec<_>>());
        for (entry, answer) in answers.iter().enumerate() {
            let faults = faults_of(&judged, entry);
            told_as_answered(&faults, answer, &sheet, entry);
            met[answer.map_or_else(Refusal::number, |()| 0) as usize] += 1;
        }
        let board = graph.totals().expect("the graph is not damaged").unexecuted;
        assert_eq!(judged.nodes.len(), board.jobs as usize);
        sums_are_right(&jobs, &[all, answers].concat(), &judged);
        rooms[usize::from(room_is_right(&jobs, before, &sheet))] += 1;
        drawn_without_a_panic(&judged);
    });
    println!("answers met: {met:?}; sheets without a room, and with one: {rooms:?}");
    assert!([0, 5, 6, 7, 8].iter().all(|number| met[*number] > 0) && rooms.iter().all(|met| *met > 0));
}

/// A room is told exactly if the greatest graph accepts all jobs, whatever sizes were asked for. Whether it is told.
fn room_is_right(jobs: &[Job], before: &[Job], sheet: &Sheet) -> bool {
    let mut graph = Graph::create(LARGEST).expect("the sizes are within their limits");
    let accepted = graph.add_all(0, jobs).expect("the worker is idle").iter().all(Result::is_ok);
    let arcs: usize = jobs.iter().map(|job| job.prerequisites.len()).sum();
    let (jobs, arcs) = (jobs.len() as u32, arcs as u32);
    let room = Room { jobs, arcs, steps: 4 * jobs + 3 * arcs };
    assert_eq!(summary::room(before, sheet), accepted.then_some(room));
    accepted
}

/// A refused entry has a fault of the library's number, for 6 at the library's place, and an accepted one has none.
fn told_as_answered(faults: &[&Fault], answer: &Result<(), Refusal>, sheet: &Sheet, entry: usize) {
    let of = |number: u32| faults.iter().filter(move |fault| fault.kind.number() == Some(number));
    match answer {
        Ok(()) => assert_eq!(faults, &[] as &[&Fault]),
        Err(refusal) => {
            assert!(of(refusal.number()).next().is_some(), "{refusal:?}: {faults:?}");
            assert!(!faults.iter().any(|fault| matches!(fault.kind, Kind::Other(_))), "{faults:?}");
            // Nothing that the library would find before its answer is told.
            assert!((5..refusal.number()).all(|number| of(number).next().is_none()), "{refusal:?}: {faults:?}");
            if let Refusal::UnknownName { place } = refusal {
                let first = of(6).map(|fault| fault.at).min();
                assert_eq!(first, Some(sheet.entries[entry].at.needs[*place]));
            }
        }
    }
}

/// Depths, arcs, chain and waits, counted anew from the jobs that were accepted, those that were there before first.
fn sums_are_right(jobs: &[Job], answers: &[Result<(), Refusal>], judged: &Judged) {
    let accepted = jobs.iter().zip(answers).filter(|(_, answer)| answer.is_ok()).map(|(job, _)| job);
    let accepted: Vec<&Job> = accepted.collect();
    let own = &accepted[judged.before..];
    let summary = Summary::of(judged);
    let find = |name: u32| accepted.iter().position(|job| job.name == name).expect("a prerequisite has entered");
    let mut depths: Vec<usize> = Vec::new();
    for job in &accepted {
        depths.push(job.prerequisites.iter().map(|name| depths[find(*name)]).max().unwrap_or(0) + 1);
    }
    assert_eq!(judged.nodes.iter().map(|node| node.depth).collect::<Vec<_>>(), depths);
    assert_eq!(judged.nodes.iter().map(|node| node.name).collect::<Vec<_>>(), names(&accepted));
    assert_eq!(summary.jobs as usize, own.len());
    assert_eq!(summary.arcs as usize, own.iter().map(|job| job.prerequisites.len()).sum::<usize>());
    let by_class: u32 = own.iter().map(|job| taskgraph::minutes(job.class)).sum();
    assert_eq!(summary.minutes, by_class);
    assert_eq!(summary.classes.values().map(|class| class.minutes).sum::<u32>(), by_class);
    let mut minutes: Vec<u32> = Vec::new();
    for job in &accepted {
        let before = job.prerequisites.iter().map(|name| minutes[find(*name)]).max().unwrap_or(0);
        minutes.push(before + taskgraph::minutes(job.class));
    }
    assert_eq!(summary.longest.jobs.len(), depths[judged.before..].iter().copied().max().unwrap_or(0));
    assert_eq!(summary.slowest.minutes, minutes[judged.before..].iter().copied().max().unwrap_or(0));
    for chain in [&summary.longest, &summary.slowest] {
        assert_eq!(chain.minutes, chain.jobs.iter().map(|name| taskgraph::minutes(accepted[find(*name)].class)).sum());
        assert!(chain.jobs.windows(2).all(|pair| accepted[find(pair[1])].prerequisites.contains(&pair[0])));
    }
    let mut arcs = 0;
    for ((grower, other), waits) in &summary.waits {
        for (name, needed) in waits {
            assert!(own.iter().any(|job| job.name == *name && job.grower == *grower));
            assert!(needed.iter().all(|name| accepted[find(*name)].grower == *other));
            arcs += needed.len();
        }
    }
    assert_eq!(arcs, summary.arcs as usize);
}

fn names(jobs: &[&Job]) -> Vec<u32> {
    jobs.iter().map(|job| job.name).collect()
}

fn drawn_without_a_panic(judged: &Judged) {
    let drawn = Drawn { title: "random".into(), nodes: judged.nodes.clone(), refused: Vec::new() };
    assert!(picture::svg(&drawn).starts_with("<svg") && picture::dot(&drawn).starts_with("digraph"));
}

#[test]
fn packed_sheets_are_refused_where_the_library_refuses_them() {
    let mut met = [0; 20];
    each("bytes", 20 * SHEETS, |random| {
        let sheet = match random.below(4) {
            0 => inputs::valid_sheet(random, 6),
            1 => inputs::loose_sheet(random),
            2 => {
                let mut sheet = inputs::valid_sheet(random, 6);
                inputs::damage(random, &mut sheet);
                sheet
            }
            _ => (0..random.below(40)).map(|_| random.byte()).collect(),
        };
        let scan = raw::scan_sheet(&sheet);
        let read = bytes::read(&sheet);
        met[scan.number as usize] += 1;
        let first = read.faults.first().map(|fault| (fault.kind.number(), fault.at));
        if scan.number == 0 {
            assert_eq!((first, read.entries.len()), (None, scan.entries));
            assert_eq!(read.packed(), Some(sheet), "one sheet has one spelling");
        } else {
            assert_eq!(first, Some((Some(scan.number), scan.at)));
            assert!(read.faults.iter().all(|fault| !matches!(fault.kind, Kind::Other(_))), "{:?}", read.faults);
            assert_eq!(read.packed(), None);
        }
        judged(&read, LARGEST);
    });
    println!("numbers met: {met:?}");
    assert!([0, 12, 13, 14].iter().all(|number| met[*number] > 0));
}

#[test]
fn days_are_those_of_the_day_list() {
    let day_sizes = Sizes { jobs: 256, arcs: 1_024, bits: 4, workers: 1 };
    each("days", SHEETS / 4, |random| {
        let count = if random.once_in(8) { 300 } else { random.below(40) };
        let mut jobs = near_jobs(random, count);
        jobs.retain(|job| job.class < 16 && job.grower < 65_536 && job.prerequisites.len() <= 32);
        let workers = 1 + random.below(16) as u32;
        let sheet = write_sheet(&jobs).expect("the values are on their limits");
        let day = Day::of(&sheet, 0, workers);
        assert_eq!(taskgraph::day_list(&sheet, workers).expect("1 to 16 workers"), told(&day));
        let judged = judged(&bytes::read(&sheet), day_sizes);
        let numbers = judged.answers.iter().map(|answer| answer.expect("it can be read")).enumerate();
        let refused = numbers.filter_map(|(entry, answer)| Some((entry, answer.err()?.number()))).collect::<Vec<_>>();
        assert_eq!(day.refused, refused);
        assert_eq!(day.rounds.iter().map(Vec::len).sum::<usize>(), day.jobs);
        rounds_are_in_order(&day, &judged);
    });
}

/// The lines of the day list, put together from the rounds.
fn told(day: &Day) -> String {
    let refused: String = day.refused.iter().map(|(entry, number)| format!("refused {entry} {number}\n")).collect();
    let worked = day.rounds.iter().flatten().enumerate();
    let lines: String = worked.map(|(place, by)| format!("{place} {} {}\n", by.name, by.worker)).collect();
    format!("{refused}jobs {} workers {}\n{lines}left {}\n", day.jobs, day.workers, day.left)
}

/// Each job comes in a later round than all that it needs, and no worker has two in one.
fn rounds_are_in_order(day: &Day, judged: &Judged) {
    let round = |name: u32| day.rounds.iter().position(|round| round.iter().any(|worked| worked.name == name));
    for node in &judged.nodes {
        let own = round(node.name).expect("each job is worked on");
        assert!(node.needs.iter().all(|needed| round(judged.nodes[*needed].name) < Some(own)));
    }
    for worked in &day.rounds {
        let workers: Vec<u32> = worked.iter().map(|worked| worked.worker).collect();
        assert!(workers.windows(2).all(|pair| pair[0] < pair[1]) && workers.iter().all(|worker| *worker < day.workers));
    }
}

#[test]
fn noise_is_answered() {
    const PIECES: [&str; 22] = [
        "1",
        "2",
        "4294967295",
        "4294967296",
        "needs",
        "class",
        "grower",
        "name",
        ",",
        ";",
        "\t",
        "\"",
        "\"\"",
        "#",
        "\n",
        "\r\n",
        " ",
        "-",
        "\0",
        "\u{f6}",
        "x",
        "99999",
    ];
    each("noise", 20 * SHEETS, |random| {
        let mut content = Vec::new();
        for _ in 0..random.below(30) {
            match random.below(12) {
                0 => content.push(random.byte()),
                _ => content.extend_from_slice(random.pick(&PIECES).as_bytes()),
            }
        }
        for form in [Form::Bytes, Form::Text, Form::Csv] {
            let sheet = read(&content, form);
            let judged = judged(&sheet, LARGEST);
            for fault in &judged.faults {
                let told = fault.to_string();
                assert!(fault.at <= content.len() && !told.chars().any(char::is_control), "{told:?}");
            }
            assert_eq!(sheet.packed().is_some(), !judged.faults.iter().any(|fault| fault.kind.hinders_packing()));
        }
        Form::of(&content);
    });
}

#[test]
fn command_lines_are_answered() {
    const WORDS: [&str; 16] = [
        "check",
        "draw",
        "run",
        "--json",
        "--csv",
        "--svg",
        "--workers",
        "--workers=3",
        "-o",
        "--from",
        "bytes",
        "-",
        "--",
        "x",
        "--=",
        "-h",
    ];
    each("command lines", SHEETS, |random| {
        let words: Vec<_> = (0..random.below(6)).map(|_| random.pick(&WORDS).into()).collect();
        match parse(words.clone()) {
            Ok(Asked::Do(..) | Asked::Help(_) | Asked::Version) => {}
            Err(stop) => assert!(stop.0.contains("jobsheet"), "{words:?}: {stop:?}"),
        }
    });
}

/// Whether some order of the jobs, without one of them, brings a job of the name: by the library, in every order.
fn some_order_brings(jobs: &[Job], without: usize, name: u32) -> bool {
    fn try_orders(graph: &Graph, rest: &[&Job], name: u32) -> bool {
        (0..rest.len()).any(|place| {
            let (mut graph, mut rest) = (graph.clone(), rest.to_vec());
            let job = rest.remove(place);
            let entered = graph.add(0, job).is_ok();
            entered && job.name == name || try_orders(&graph, &rest, name)
        })
    }
    let sizes = Sizes { jobs: 8, arcs: 64, bits: 1, workers: 1 };
    let others = jobs.iter().enumerate().filter(|(place, _)| *place != without).map(|(_, job)| job);
    try_orders(&Graph::create(sizes).expect("the sizes are within their limits"), &others.collect::<Vec<_>>(), name)
}

#[test]
fn advice_helps() {
    let mut met = [0; 4];
    each("advice", SHEETS / 4, |random| {
        let any = |random: &mut Random| {
            let names: Vec<u32> = (0..random.below(3)).map(|_| 1 + random.below(5) as u32).collect();
            let class = if random.once_in(12) { 16 } else { 0 };
            Job { class, ..Job::new(1 + random.below(4) as u32, &names) }
        };
        let count = 2 + random.below(4);
        let jobs: Vec<Job> = (0..count).map(|_| any(random)).collect();
        let judged = judged(&text::read(text::write(&jobs).as_bytes()), LARGEST);
        for fault in &judged.faults {
            let (name, place) = match fault.kind {
                Kind::UnknownName(_, name, place) => (name, place),
                _ => continue,
            };
            let number = fault.entry.expect("a fault of an entry");
            let has_it = |other: usize| other != number && jobs[other].name == name;
            let (kind, true_of_it) = match place {
                Elsewhere::Nowhere => (0, !(0..count).any(has_it)),
                Elsewhere::Later(other, _) => {
                    let later = has_it(other.entry) && other.entry > number;
                    (1, later && some_order_brings(&jobs, number, name))
                }
                Elsewhere::Refused(other) => (2, has_it(other.entry) && judged.answers[other.entry] != Some(Ok(()))),
                Elsewhere::Circle(other) => (3, has_it(other.entry) && !some_order_brings(&jobs, number, name)),
                Elsewhere::Lost => panic!("no sheet comes before"),
            };
            assert!(true_of_it, "{fault}\n{}", text::write(&jobs));
            met[kind] += 1;
        }
    });
    println!("nowhere, later, refused, in a circle: {met:?}");
    assert!(met.iter().all(|met| *met > 0));
}
