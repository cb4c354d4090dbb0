//! The sheets that are read and written: a random mix, and the two extremes of an entry's size. And sheets that a graph
//! accepts, whose room is asked for.

use compare_sheets::{
    accepted,
    inputs::{rows, sheet_of},
    random::Random,
    writing::to_second,
};
use second_implementation::sheet;
use taskgraph::raw::{Entry, MAX_JOBS, MAX_NAMES};

/// The longest sheet of the day list, in bytes.
const SHEET_BYTES: usize = 32_768;

/// How many sheets of a random mix are taken in turn. A host reads each sheet once; one sheet, read again
/// and again, is learnt by the processor's branch prediction, so that its times are shown beside theirs.
const SHEETS_IN_TURN: usize = 16;

/// The same sheets in each run, so that their counts are the same.
const SEED: u64 = 1993;

/// Sheets of one kind, read or written in turn.
pub struct Workload {
    pub name: &'static str,
    pub description: String,
    /// The most instructions that the library may take to read and to write them, as multiples of what
    /// the second implementation takes (docs/SPEED.md). Where there is none, the times are all that is shown.
    pub most: Option<[f64; 2]>,
    pub samples: Vec<Sample>,
}

/// A sheet, and its entries as each implementation has them.
pub struct Sample {
    pub sheet: Vec<u8>,
    pub rows: Vec<u32>,
    pub entries: Vec<sheet::Entry>,
}

pub fn all() -> [Workload; 4] {
    let mut random = Random::new(SEED, "bench");
    let one_mixed = mixed(&mut random);
    let in_turn = (0..SHEETS_IN_TURN).map(|_| mixed(&mut random)).collect();
    let name = |random: &mut Random| Entry { name: random.word(), ..Entry::default() };
    let smallest = repeated(|| name(&mut random));
    let longest =
        repeated(|| Entry { count: MAX_NAMES as u32, names: names(&mut random, MAX_NAMES), ..name(&mut random) });
    [
        workload("random mixes in turn", in_turn, Some([1.7, 1.0])),
        workload("the smallest entries", vec![smallest], Some([1.3, 1.0])),
        workload("the longest lists", vec![longest], Some([1.4, 1.2])),
        workload("one random mix again and again", vec![one_mixed], None),
    ]
}

/// Sheets whose adds are all accepted, a random mix and three that fill the greatest graph; with the most instructions
/// that the library may take for their room, as multiples of what unproved Rust takes (docs/SPEED.md). Where there is
/// none, the counts are only shown.
pub const FITTING: [(&str, Option<f64>); 4] = [
    ("mixes that fit, in turn", Some(0.95)),
    ("4,096 jobs without a list", Some(0.4)),
    ("1,024 jobs of 32 names", Some(1.45)),
    ("4,096 jobs of 8 names", Some(0.9)),
];

/// The sheets of one of these names; they alone are made, as each count makes them anew.
pub fn fitting(name: &'static str) -> Workload {
    let mut random = Random::new(SEED, name);
    let jobs = MAX_JOBS as usize;
    // The first jobs have no list, the others one of this length.
    let mut filled = |first: usize, others: usize, length: usize| {
        vec![with_lists(&mut random, &[vec![0; first], vec![length; others]].concat())]
    };
    let sheets = match name {
        "4,096 jobs without a list" => filled(jobs, 0, 0),
        "1,024 jobs of 32 names" => filled(MAX_NAMES, 1_024, MAX_NAMES),
        "4,096 jobs of 8 names" => filled(8, jobs - 8, 8),
        _ => (0..SHEETS_IN_TURN).map(|_| fitting_mix(&mut random)).collect(),
    };
    workload(name, sheets, None)
}

/// As `mixed`, with lists that name jobs before, and as many bytes as `SHEET_BYTES` or a few less.
fn fitting_mix(random: &mut Random) -> Vec<Entry> {
    let mut mix = Vec::new();
    let mut left = SHEET_BYTES;
    loop {
        let entry = mixed_entry(random);
        let list = if entry.count > 0 { 1 + 4 * entry.count as usize } else { 0 };
        let len = 5 + list + usize::from(entry.class > 0) + 2 * usize::from(entry.grower > 0);
        if len > left {
            break;
        }
        left -= len;
        mix.push(entry);
    }
    let lengths: Vec<usize> = mix.iter().map(|entry| entry.count as usize).collect();
    let lists = with_lists(random, &lengths).into_iter().zip(mix);
    lists.map(|(entry, mixed)| Entry { class: mixed.class, grower: mixed.grower, ..entry }).collect()
}

/// Jobs of any names with lists of these lengths, or as long as there are jobs before.
fn with_lists(random: &mut Random, lengths: &[usize]) -> Vec<Entry> {
    let mut names = Vec::new();
    let mut entries = Vec::new();
    for length in lengths {
        let mut entry = Entry { name: random.word(), ..Entry::default() };
        accepted::list(random, &mut entry, &names, *length);
        names.push(entry.name);
        entries.push(entry);
    }
    entries
}

fn workload(name: &'static str, sheets: Vec<Vec<Entry>>, most: Option<[f64; 2]>) -> Workload {
    let all: Vec<&Entry> = sheets.iter().flatten().collect();
    let share = |has: fn(&Entry) -> bool| 100 * all.iter().filter(|entry| has(entry)).count() / all.len();
    let listed: usize = all.iter().map(|entry| entry.count as usize).sum();
    let lists = share(|entry| entry.count > 0);
    let classes = share(|entry| entry.class > 0);
    let growers = share(|entry| entry.grower > 0);
    let names = listed as f64 / all.len() as f64;
    let samples: Vec<Sample> = sheets.iter().map(|entries| sample(entries)).collect();
    let bytes = samples[0].sheet.len();
    let description = format!(
        "{name}: sheets: {}, of {bytes} bytes each; entries: {}, {lists}% with a list, {classes}% with a class, \
         {growers}% with a grower, {names:.1} names on average",
        samples.len(),
        all.len(),
    );
    Workload { name, description, most, samples }
}

fn sample(entries: &[Entry]) -> Sample {
    let rows = rows(entries);
    Sample { sheet: sheet_of(entries), rows, entries: entries.iter().copied().map(to_second).collect() }
}

/// Entries of one size, as many as a sheet takes.
fn repeated(mut entry: impl FnMut() -> Entry) -> Vec<Entry> {
    let count = SHEET_BYTES / sheet_of(&[entry()]).len();
    (0..count).map(|_| entry()).collect()
}

/// A list in two entries of three, mostly short; a class and a grower in every other one. The last
/// entries are chosen so that the sheet has just `SHEET_BYTES` bytes.
fn mixed(random: &mut Random) -> Vec<Entry> {
    let mut entries = Vec::new();
    let mut left = SHEET_BYTES;
    while left > 0 {
        let entry = mixed_entry(random);
        let len = sheet_of(&[entry]).len();
        if len == left || len + ROOM_TO_FILL <= left {
            entries.push(entry);
            left -= len;
        }
    }
    entries
}

/// So many bytes and more can be filled just with entries of 5, 6, 7 and 8 bytes.
const ROOM_TO_FILL: usize = 10;

fn mixed_entry(random: &mut Random) -> Entry {
    let count = match random.below(12) {
        0..=3 => 0,
        4..=9 => 1 + random.below(4),
        _ => 1 + random.below(MAX_NAMES),
    };
    Entry {
        name: random.word(),
        count: count as u32,
        class: if random.once_in(2) { 0 } else { 1 + random.below(15) as u32 },
        grower: if random.once_in(2) { 0 } else { 1 + random.below(65_535) as u32 },
        names: names(random, count),
    }
}

/// `count` random names, and 0 in the other places.
fn names(random: &mut Random, count: usize) -> [u32; MAX_NAMES] {
    let mut names = [0; MAX_NAMES];
    names[..count].fill_with(|| random.word());
    names
}
