//! A sheet judged: its jobs added to a graph of the library, and the words for what that refuses.

use std::collections::{HashMap, HashSet};

use taskgraph::{
    raw::{MAX_ARCS, MAX_BITS, MAX_ENTRIES, MAX_JOBS, MAX_NAMES},
    Graph, Job, Refusal, Sizes, Sum, TaskGraph,
};

use crate::{
    draft::Wrong,
    fault::{Elsewhere, Fault, Kind, Other},
    number::Part,
    picture::Node,
    remedies::{Came, Remedies, Remedy},
    sheet::Entry,
    terminal::Progress,
    Sheet,
};

/// The sizes of the largest graph, with one worker.
pub const LARGEST: Sizes = Sizes { jobs: MAX_JOBS, arcs: MAX_ARCS, bits: MAX_BITS, workers: 1 };

/// What a graph makes of a sheet.
#[derive(Clone, Debug)]
pub struct Judged {
    /// How the add of each entry ended; nothing of entries that cannot be read.
    pub answers: Vec<Option<Result<(), Refusal>>>,
    /// The jobs that entered, in order: those that were there before, and then the sheet's.
    pub nodes: Vec<Node>,
    /// How many of them were there before.
    pub before: usize,
    /// All that is wrong, in the order of the file.
    pub faults: Vec<Fault>,
    /// The sheet's jobs that entered, and their minutes, as the board counts them.
    pub sum: Sum,
}

impl Judged {
    /// How many entries are refused or cannot be read.
    pub fn refused(&self) -> usize {
        self.answers.iter().filter(|answer| **answer != Some(Ok(()))).count()
    }

    /// The sheet's own jobs that entered.
    pub fn own(&self) -> &[Node] {
        &self.nodes[self.before..]
    }
}

/// Adds the jobs of a sheet to a graph that has been given the jobs of `before`, and nothing else. The sheet's faults
/// move to the answer.
///
/// # Errors
/// [`Refusal::Size`] where a size is out of range.
pub fn judge(sheet: &mut Sheet, before: &[Job], sizes: Sizes, progress: &Progress) -> Result<Judged, Refusal> {
    let mut graph = Graph::create(sizes)?;
    let entered = graph.add_all(0, before)?;
    let first = graph.totals()?.unexecuted;
    let answers = add_all(&mut graph, sheet, progress)?;
    let last = graph.totals()?.unexecuted;
    let mut faults = std::mem::take(&mut sheet.faults);
    let (there, lost): (Vec<_>, Vec<_>) = before.iter().zip(entered).partition(|(_, answer)| answer.is_ok());
    let there: Vec<&Job> = there.into_iter().map(|(job, _)| job).collect();
    let mut book = Book::new(sheet, &there, &answers, sizes);
    book.lost.extend(lost.into_iter().map(|(job, _)| job.name));
    for (number, (entry, answer)) in sheet.entries.iter().zip(&answers).enumerate() {
        match (&entry.job, &entry.rest, answer) {
            (Some(job), _, Some(Ok(()))) => book.enter(Some(number), job),
            (Some(job), _, Some(Err(refusal))) => faults.extend(book.explain(number, entry, job, Some(*refusal))),
            (_, Some(rest), _) => faults.extend(book.explain(number, entry, rest, None)),
            _ => {}
        }
    }
    faults.sort_by_key(|fault| fault.at);
    let sum = Sum { jobs: last.jobs - first.jobs, minutes: last.minutes - first.minutes };
    Ok(Judged { answers, nodes: book.nodes, before: there.len(), faults, sum })
}

/// How the add of each entry ended; those that cannot be read are passed over.
fn add_all(graph: &mut Graph, sheet: &Sheet, progress: &Progress) -> Result<Vec<Option<Result<(), Refusal>>>, Refusal> {
    let mut answers = Vec::with_capacity(sheet.entries.len());
    for part in sheet.entries.chunks(MAX_ENTRIES) {
        let jobs: Vec<Job> = part.iter().filter_map(|entry| entry.job.clone()).collect();
        let mut ended = graph.add_sheet(0, &jobs)?.into_iter();
        answers.extend(part.iter().map(|entry| entry.job.as_ref().and_then(|_| ended.next())));
        progress.at(answers.len());
    }
    Ok(answers)
}

/// What has entered so far, to find the words for a refusal.
struct Book<'a> {
    sheet: &'a Sheet,
    sizes: Sizes,
    nodes: Vec<Node>,
    arcs: usize,
    /// The node of each name that has entered, and its entry, if it was not there before.
    entered: HashMap<u32, (usize, Option<usize>)>,
    /// The names of jobs that should have been there before and were refused.
    lost: HashSet<u32>,
    remedies: Remedies,
}

/// What came of an entry: number 5 is for its own faults.
fn came(answer: &Option<Result<(), Refusal>>) -> Came {
    match answer {
        Some(Ok(())) => Came::Accepted,
        Some(Err(Refusal::Arguments)) | None => Came::Faulty,
        Some(Err(_)) => Came::Refused,
    }
}

impl<'a> Book<'a> {
    fn new(sheet: &'a Sheet, before: &[&Job], answers: &[Option<Result<(), Refusal>>], sizes: Sizes) -> Book<'a> {
        let came: Vec<Came> = answers.iter().map(came).collect();
        let remedies = if came.iter().all(|came| *came == Came::Accepted) {
            Remedies::default()
        } else {
            Remedies::new(sheet, before.iter().map(|job| job.name).collect(), &came)
        };
        let (nodes, entered, lost) = (Vec::new(), HashMap::new(), HashSet::new());
        let mut book = Book { sheet, sizes, nodes, arcs: 0, entered, lost, remedies };
        before.iter().for_each(|job| book.enter(None, job));
        book
    }

    fn enter(&mut self, number: Option<usize>, job: &Job) {
        let needs: Vec<usize> = job.prerequisites.iter().filter_map(|name| Some(self.entered.get(name)?.0)).collect();
        let depth = needs.iter().map(|node| self.nodes[*node].depth).max().unwrap_or(0) + 1;
        self.entered.insert(job.name, (self.nodes.len(), number));
        self.arcs += needs.len();
        self.nodes.push(Node { name: job.name, class: job.class, grower: job.grower, depth, needs });
    }

    /// All that is wrong with an entry that was refused, or with what can be read of one. If a refusal's own number is
    /// not among it, that comes first.
    fn explain(&self, number: usize, entry: &Entry, job: &Job, refusal: Option<Refusal>) -> Vec<Fault> {
        let mut wrong = Vec::new();
        self.arguments(entry, job, &mut wrong);
        self.names(number, entry, job, &mut wrong);
        self.room(entry, job, &mut wrong);
        if let Some(refusal) = refusal {
            if !wrong.iter().any(|(_, kind)| kind.number() == Some(refusal.number())) {
                wrong.insert(0, (entry.at.entry, Kind::Other(refusal)));
            }
        }
        let fault = |(at, kind)| Fault { entry: Some(number), line: entry.line, at, job: entry.name, kind };
        wrong.into_iter().map(fault).collect()
    }

    /// Number 5, by the sizes of the arguments.
    fn arguments(&self, entry: &Entry, job: &Job, wrong: &mut Vec<Wrong>) {
        let list = &job.prerequisites;
        if list.len() > MAX_NAMES {
            wrong.push((entry.at.needs[MAX_NAMES], Kind::LongList(list.len())));
        }
        for (at, part, value) in [(entry.at.class, Part::Class, job.class), (entry.at.grower, Part::Grower, job.grower)]
        {
            if value > part.most() {
                wrong.push((at, Kind::Above(part, value.to_string())));
            }
        }
    }

    /// Numbers 5 to 7, by the names.
    fn names(&self, number: usize, entry: &Entry, job: &Job, wrong: &mut Vec<Wrong>) {
        let mut met = HashSet::new();
        for (name, at) in job.prerequisites.iter().zip(&entry.at.needs) {
            if Some(*name) == entry.name {
                wrong.push((*at, Kind::OwnName));
            } else if !met.insert(*name) {
                wrong.push((*at, Kind::NameTwice(*name)));
            } else if !self.entered.contains_key(name) {
                wrong.push((*at, Kind::UnknownName(entry.name, *name, self.elsewhere(number, *name))));
            }
        }
        if let Some((name, (_, first))) = entry.name.and_then(|name| Some((name, self.entered.get(&name)?))) {
            wrong.push((entry.at.name, Kind::NamePresent(name, first.map(|entry| self.other(entry)))));
        }
    }

    /// Where a name could be had; of an entry that comes later, whether it needs others that come later too.
    fn elsewhere(&self, number: usize, name: u32) -> Elsewhere {
        match self.remedies.of(number, name) {
            Remedy::Nowhere if self.lost.contains(&name) => Elsewhere::Lost,
            Remedy::Nowhere => Elsewhere::Nowhere,
            Remedy::Refused(entry) => Elsewhere::Refused(self.other(entry)),
            Remedy::Circle(entry) => Elsewhere::Circle(self.other(entry)),
            Remedy::Later(entry) => {
                let needs = self.sheet.entries[entry].needs();
                let alone = needs.iter().all(|name| self.entered.contains_key(name));
                Elsewhere::Later(self.other(entry), alone)
            }
        }
    }

    fn other(&self, entry: usize) -> Other {
        Other { entry, line: self.sheet.entries[entry].line }
    }

    /// Number 8.
    fn room(&self, entry: &Entry, job: &Job, wrong: &mut Vec<Wrong>) {
        let left = self.sizes.arcs as usize - self.arcs;
        if self.nodes.len() == self.sizes.jobs as usize {
            wrong.push((entry.at.entry, Kind::NoRoomForJob(self.sizes.jobs)));
        }
        if job.prerequisites.len() > left {
            wrong.push((entry.at.entry, Kind::NoRoomForArcs(job.prerequisites.len(), left, self.sizes.arcs)));
        }
    }
}
