//! The day list: the library prints what the second implementation prints.

use compare_graph::day::{DayList, ROOM};
use compare_sheets::{
    case::Comparison,
    inputs::{self, FOUR_JOBS},
    random::Random,
};
use second_implementation::day_list::day_list;
use taskgraph::raw::{Entry, MAX_NAMES};

/// Entries whose lists mostly name jobs before them.
fn sheet(random: &mut Random, count: usize) -> Vec<u8> {
    let mut names: Vec<u32> = Vec::new();
    let mut entries = Vec::new();
    let strange = random.pick(&[8, 30, 1_000]);
    let longest = random.pick(&[0, 2, 4, 12, MAX_NAMES]);
    let classes = random.pick(&[1, 3, 16]);
    for number in 0..count {
        let mut entry = Entry { name: number as u32, class: random.below(classes) as u32, ..Entry::default() };
        if random.once_in(strange) {
            entry.name = inputs::word(random);
        }
        for _ in 0..random.below(longest + 1) {
            let listed = match names.len() {
                0 => continue,
                _ if random.once_in(strange) => inputs::word(random),
                len => names[random.below(len)],
            };
            let list = &entry.names[..entry.count as usize];
            if !list.contains(&listed) || random.once_in(strange) {
                entry.names[entry.count as usize] = listed;
                entry.count += 1;
            }
        }
        names.push(entry.name);
        entries.push(entry);
    }
    inputs::sheet_of(&entries)
}

fn workers(random: &mut Random) -> u32 {
    if random.once_in(4) {
        2
    } else {
        1 + random.below(16) as u32
    }
}

fn with_room(sheet: Vec<u8>, workers: u32) -> DayList {
    DayList { sheet, workers, out_len: ROOM }
}

#[test]
fn random_sheets() {
    let (mut comparison, mut random) = Comparison::new("day list, random sheets");
    for number in 0..8_000 {
        let count = if number % 50 == 0 { random.below(400) } else { random.below(20) };
        let mut bytes = sheet(&mut random, count);
        if random.once_in(3) {
            inputs::damage(&mut random, &mut bytes);
        }
        comparison.check(with_room(bytes, workers(&mut random)));
    }
    comparison.finish();
}

#[test]
fn cut_sheets() {
    let (mut comparison, mut random) = Comparison::new("day list, sheets cut at every place");
    for bytes in [FOUR_JOBS.to_vec(), sheet(&mut random, 12)] {
        for len in 0..=bytes.len() {
            comparison.check(with_room(bytes[..len].to_vec(), 2));
        }
    }
    comparison.finish();
}

#[test]
fn every_number_of_workers() {
    let (mut comparison, mut random) = Comparison::new("day list, every number of workers");
    for count in [0, 1, 7, 60] {
        let bytes = sheet(&mut random, count);
        for workers in (0..=18).chain([32, 255, 256, 257, 1 << 31, u32::MAX]) {
            comparison.check(with_room(bytes.clone(), workers));
        }
    }
    comparison.finish();
}

#[test]
fn long_sheets() {
    let (mut comparison, mut random) = Comparison::new("day list, sheets of about 32,768 bytes");
    for name in [0, u32::MAX] {
        let many: Vec<u8> = (0..6_553).flat_map(|_| inputs::sheet_of(&[Entry { name, ..Entry::default() }])).collect();
        comparison.check(with_room(many, 2));
    }
    for _ in 0..20 {
        let mut bytes = sheet(&mut random, 3_000);
        bytes.truncate(random.pick(&[32_760, 32_767, 32_768, 32_769, 33_000]));
        comparison.check(with_room(bytes.clone(), workers(&mut random)));
        bytes.truncate(32_768);
        while day_list(&bytes, 2).map_or(false, |text| text.starts_with("broken")) {
            bytes.pop();
        }
        comparison.check(with_room(bytes, workers(&mut random)));
    }
    comparison.check(with_room(vec![0; 32_769], 2));
    comparison.check(with_room(vec![1; 200_000], 2));
    comparison.finish();
}

#[test]
fn short_outputs() {
    let (mut comparison, mut random) = Comparison::new("day list, outputs of every length");
    for count in [0, 1, 4, 9] {
        let bytes = if count == 4 { FOUR_JOBS.to_vec() } else { sheet(&mut random, count) };
        for sheet in [bytes.clone(), bytes[..bytes.len().saturating_sub(1)].to_vec()] {
            let len = day_list(&sheet, 2).expect("two workers").len();
            for out_len in 0..len + 4 {
                comparison.check(DayList { sheet: sheet.clone(), workers: 2, out_len });
            }
        }
    }
    comparison.finish();
}
