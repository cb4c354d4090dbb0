//! Cases of the room of a sheet.

use second_implementation::room::{self, NoRoom};
use taskgraph::{
    raw::{Room, MAX_ARCS, MAX_JOBS},
    read_sheet, room_of_sheet, Graph, Job, Outcome, Progress, Refusal, Sizes, TaskGraph,
};

use crate::{
    case::{differ, Case},
    guarded,
    random::Random,
    reading::{entry_ends, smaller_sheets},
    shrink,
};

/// A sheet, and its room.
pub struct RoomOf {
    pub bytes: Vec<u8>,
}

impl Case for RoomOf {
    fn difference(&self) -> Option<String> {
        let lent = guarded::Sheet::new(&self.bytes);
        let room = taskgraph::raw::room_of_sheet(lent.bytes());
        let formula = 4 * room.jobs + 3 * room.arcs;
        differ("tg_room_of_sheet", room, expected(&self.bytes))
            .or_else(|| differ("the steps, and 4 for each job and 3 for each arc", room.steps, formula))
    }

    fn smaller(&self) -> Box<dyn Iterator<Item = Self> + '_> {
        Box::new(fewer_entries(&self.bytes).chain(smaller_sheets(&self.bytes)).map(|bytes| RoomOf { bytes }))
    }

    fn show(&self) -> String {
        format!("sheet of {} bytes: {}", self.bytes.len(), shrink::hex(&self.bytes))
    }
}

/// The sheet without some of its entries; what cannot be read stays.
fn fewer_entries(bytes: &[u8]) -> impl Iterator<Item = Vec<u8>> + '_ {
    let mut start = 0;
    let mut entries: Vec<&[u8]> = Vec::new();
    for end in entry_ends(bytes) {
        entries.push(&bytes[start..end]);
        start = end;
    }
    let fewer: Vec<Vec<&[u8]>> = shrink::shorter(&entries, 1).collect();
    fewer.into_iter().map(move |entries| [&entries.concat(), &bytes[start..]].concat())
}

/// What the library is to answer.
pub fn expected(sheet: &[u8]) -> Room {
    match room::room(sheet) {
        Ok(room::Room { jobs, arcs, steps }) => Room { jobs, arcs, steps, ..Room::default() },
        Err(NoRoom::TurnedAway { entry, refusal }) => {
            Room { number: refusal.number, entry: entry as u32, place: refusal.place as u32, ..Room::default() }
        }
        Err(NoRoom::Unreadable(error)) => Room { number: error.number(), at: error.offset(), ..Room::default() },
    }
}

/// A sheet that fits, and graphs of the library: as large as its room, larger, and one job or one arc smaller. It is
/// added to each, and run in the first.
pub struct Enough {
    pub bytes: Vec<u8>,
    pub bits: u32,
    pub workers: u32,
    /// By how much the larger graphs are larger.
    pub more_jobs: u32,
    pub more_arcs: u32,
    /// For who calls next in the run, and how a job ends.
    pub seed: u64,
}

impl Enough {
    /// Graphs of any bits and workers.
    pub fn any(random: &mut Random, bytes: Vec<u8>) -> Enough {
        Enough {
            bytes,
            bits: 1 + random.below(8) as u32,
            workers: 1 + random.below(16) as u32,
            more_jobs: 1 + random.below(100) as u32,
            more_arcs: 1 + random.below(100) as u32,
            seed: random.number(),
        }
    }

    fn sizes(&self, jobs: u32, arcs: u32) -> Sizes {
        Sizes { jobs: jobs.clamp(1, MAX_JOBS), arcs: arcs.min(MAX_ARCS), bits: self.bits, workers: self.workers }
    }

    /// Adds all entries to a fresh graph, of which these alone must be refused, by 8.
    fn added(&self, jobs: &[Job], sizes: Sizes, refused: Option<usize>) -> Option<String> {
        let mut graph = Graph::create(sizes).expect("the sizes are within their limits");
        let answers = graph.add_all(0, jobs).expect("worker 0 is there and idle");
        let entries = answers.iter().enumerate().filter_map(|(entry, answer)| Some((entry, answer.err()?)));
        let expected: Vec<(usize, Refusal)> = refused.map(|entry| (entry, Refusal::Full)).into_iter().collect();
        differ(&format!("the entries refused in a graph of {sizes:?}"), entries.collect::<Vec<_>>(), expected)
    }

    /// The steps of a full run: the adds by any workers, then gets and finishes of all workers, their steps mixed.
    fn steps(&self, jobs: &[Job], sizes: Sizes) -> u32 {
        let mut graph = Graph::create(sizes).expect("the sizes are within their limits");
        let mut random = Random::new(self.seed, "a full run");
        let mut steps = 0;
        for job in jobs {
            let worker = random.below(sizes.workers as usize) as u32;
            graph.post_add(worker, job).expect("it is accepted");
            steps += 1;
            while graph.step(worker).expect("it is accepted") == Progress::GoingOn {
                steps += 1;
            }
        }
        let mut held = vec![None; sizes.workers as usize];
        let mut finishing = vec![false; sizes.workers as usize];
        while !graph.drained().expect("the tables are whole") {
            let worker = random.below(sizes.workers as usize);
            let number = worker as u32;
            if finishing[worker] {
                finishing[worker] = graph.step(number).expect("a finish is posted") == Progress::GoingOn;
                steps += 1;
            } else if let Some((name, spoiled)) = held[worker].take() {
                let outcome = if spoiled || random.once_in(8) { Outcome::Failed } else { Outcome::Good };
                graph.post_finish(number, name, outcome).expect("it is held");
                finishing[worker] = true;
            } else if let Some(job) = graph.get(number).expect("it holds none") {
                held[worker] = Some((job.name, job.spoiled));
                steps += 1;
            }
        }
        assert_eq!(graph.totals().expect("the tables are whole").finished.jobs as usize, jobs.len());
        steps
    }
}

impl Case for Enough {
    fn difference(&self) -> Option<String> {
        let room = room_of_sheet(&self.bytes).ok()?;
        let jobs = read_sheet(&self.bytes).expect("a sheet that fits can be read");
        let sizes = self.sizes(room.jobs, room.arcs);
        let (more_jobs, more_arcs) = (room.jobs + self.more_jobs, room.arcs + self.more_arcs);
        let enough = [
            sizes,
            self.sizes(more_jobs, room.arcs),
            self.sizes(room.jobs, more_arcs),
            self.sizes(more_jobs, more_arcs),
            self.sizes(MAX_JOBS, MAX_ARCS),
        ];
        let last = jobs.len().checked_sub(1).filter(|last| *last > 0);
        let last_list = jobs.iter().rposition(|job| !job.prerequisites.is_empty());
        enough
            .into_iter()
            .find_map(|sizes| self.added(&jobs, sizes, None))
            .or_else(|| self.added(&jobs, self.sizes(room.jobs - 1, room.arcs), Some(last?)))
            .or_else(|| self.added(&jobs, self.sizes(room.jobs, room.arcs - 1), Some(last_list?)))
            .or_else(|| differ("the steps of a full run", room.steps, self.steps(&jobs, sizes)))
    }

    fn smaller(&self) -> Box<dyn Iterator<Item = Self> + '_> {
        let Enough { bits, workers, more_jobs, more_arcs, seed, .. } = *self;
        let with = move |bytes| Enough { bytes, bits, workers, more_jobs, more_arcs, seed };
        Box::new(fewer_entries(&self.bytes).map(with))
    }

    fn show(&self) -> String {
        let Enough { bytes, bits, workers, more_jobs, more_arcs, seed } = self;
        let sheet = shrink::hex(bytes);
        format!(
            "sheet of {} bytes: {sheet}\nbits {bits}, workers {workers}, {more_jobs} jobs and {more_arcs} arcs more, \
             seed of the run {seed}",
            bytes.len()
        )
    }
}

/// How often each answer came.
#[derive(Debug, Default)]
pub struct Met {
    numbers: [u64; 20],
    /// Unknown names that are not the first of their list.
    pub later_places: u64,
    /// Sheets that cannot be read, with an earlier entry that would be refused.
    pub behind_refused: u64,
    /// By number 8: entry 4,096, and any earlier one.
    pub full_of_jobs: u64,
    pub full_of_arcs: u64,
}

impl Met {
    /// Notes the library's answer, once it was compared.
    pub fn note(&mut self, sheet: &[u8]) {
        let room = taskgraph::raw::room_of_sheet(sheet);
        self.numbers[room.number as usize] += 1;
        self.later_places += u64::from(room.place > 0);
        self.full_of_jobs += u64::from(room.number == 8 && room.entry == MAX_JOBS);
        self.full_of_arcs += u64::from(room.number == 8 && room.entry < MAX_JOBS);
        if room.number >= 12 {
            let start = entry_ends(sheet).last().copied().unwrap_or(0);
            self.behind_refused += u64::from(taskgraph::raw::room_of_sheet(&sheet[..start]).number != 0);
        }
    }

    /// Prints the counts; each of these numbers must have come.
    pub fn finish(&self, numbers: &[usize]) {
        let each: Vec<String> = [0, 5, 6, 7, 8, 12, 13, 14].map(|n: usize| format!("{n}: {}", self.numbers[n])).into();
        let Met { later_places, behind_refused, full_of_jobs, full_of_arcs, .. } = self;
        println!(
            "\nnumbers met: {}; later places {later_places}, behind a refused entry {behind_refused}, full of jobs \
             {full_of_jobs}, of arcs {full_of_arcs}",
            each.join(", ")
        );
        assert!(numbers.iter().all(|number| self.numbers[*number] > 0), "each of {numbers:?} came");
    }
}
