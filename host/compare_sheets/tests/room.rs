//! The room of a sheet: the library tells what the second implementation finds by adding and running it.

use compare_sheets::{
    accepted::{self, FAULTS},
    case::Comparison,
    inputs::{self, FOUR_JOBS},
    random::Random,
    room::{Enough, Met, RoomOf},
};
use taskgraph::raw::{Entry, MAX_NAMES};

const MOST_JOBS: usize = 4_096;

/// A few entries, which are all accepted.
fn few(random: &mut Random) -> Vec<Entry> {
    let count = random.below(40);
    let longest = random.pick(&[0, 1, 3, 12, MAX_NAMES]);
    accepted::entries(random, count, longest)
}

/// A few entries, of which some are refused.
fn few_with_faults(random: &mut Random) -> Vec<Entry> {
    let mut entries = few(random);
    if entries.is_empty() {
        entries.push(Entry::default());
    }
    for _ in 0..1 + random.below(2) {
        let number = if random.once_in(8) { 0 } else { random.below(entries.len()) };
        let fault = random.pick(&FAULTS);
        accepted::plant(random, &mut entries, number, fault);
    }
    entries
}

/// Entries about as many as the greatest graph has room for, or with about as many arcs.
fn many(random: &mut Random) -> Vec<Entry> {
    let about = |random: &mut Random, number: usize| number - 3 + random.below(7);
    match random.below(4) {
        0 => {
            let count = about(random, MOST_JOBS);
            accepted::entries(random, count, 0)
        }
        1 => {
            let count = random.pick(&[MOST_JOBS - 1, MOST_JOBS, MOST_JOBS + 1, 5_000]);
            let longest = random.pick(&[1, 4, 16]);
            accepted::entries(random, count, longest)
        }
        2 => {
            let lists = about(random, 1_024);
            with_long_lists(random, lists)
        }
        // 32 arcs are left after the long lists: just taken, one of them left over, or one missing.
        _ => {
            let mut entries = with_long_lists(random, 1_023);
            let first = random.below(MAX_NAMES + 1);
            let second = (MAX_NAMES - first + random.below(3)).saturating_sub(1).min(MAX_NAMES);
            let at = entries.len() - 4;
            for (entry, count) in entries[at..].iter_mut().zip([first, 0, second]) {
                entry.count = count as u32;
            }
            entries
        }
    }
}

/// 32 entries without a list, so many that list all of these, and a few without a list. All have 32 names behind the
/// list's end, so that a list may be given another length.
fn with_long_lists(random: &mut Random, lists: usize) -> Vec<Entry> {
    let mut entries = accepted::entries(random, MAX_NAMES + lists + 4, 0);
    let first: Vec<u32> = entries[..MAX_NAMES].iter().map(|entry| entry.name).collect();
    for (number, entry) in entries[MAX_NAMES..].iter_mut().enumerate() {
        entry.names.copy_from_slice(&first);
        entry.names.rotate_left(random.below(MAX_NAMES));
        entry.count = if number < lists { MAX_NAMES as u32 } else { 0 };
    }
    entries
}

fn check(comparison: &mut Comparison, met: &mut Met, bytes: Vec<u8>) {
    comparison.check(RoomOf { bytes: bytes.clone() });
    met.note(&bytes);
}

#[test]
fn sheets_that_fit() {
    let (mut comparison, mut random) = Comparison::new("room, sheets that fit");
    let mut met = Met::default();
    comparison.check(RoomOf { bytes: Vec::new() });
    comparison.check(RoomOf { bytes: FOUR_JOBS.to_vec() });
    for _ in 0..20_000 {
        let bytes = inputs::sheet_of(&few(&mut random));
        check(&mut comparison, &mut met, bytes);
    }
    met.finish(&[0]);
    comparison.finish();
}

#[test]
fn entries_that_are_refused() {
    let (mut comparison, mut random) = Comparison::new("room, entries that are refused");
    let mut met = Met::default();
    for _ in 0..30_000 {
        let bytes = inputs::sheet_of(&few_with_faults(&mut random));
        check(&mut comparison, &mut met, bytes);
    }
    met.finish(&[5, 6, 7]);
    assert!(met.later_places > 0);
    comparison.finish();
}

#[test]
fn damaged_sheets() {
    let (mut comparison, mut random) = Comparison::new("room, damaged sheets");
    let mut met = Met::default();
    for _ in 0..30_000 {
        let entries = if random.once_in(2) { few(&mut random) } else { few_with_faults(&mut random) };
        let mut bytes = inputs::sheet_of(&entries);
        inputs::damage(&mut random, &mut bytes);
        check(&mut comparison, &mut met, bytes);
    }
    met.finish(&[0, 5, 6, 7, 12, 13, 14]);
    assert!(met.behind_refused > 0);
    comparison.finish();
}

#[test]
fn sheets_cut_at_every_place() {
    let (mut comparison, mut random) = Comparison::new("room, sheets cut at every place");
    let mut met = Met::default();
    let mut sheets = vec![FOUR_JOBS.to_vec()];
    sheets.extend((0..40).map(|_| inputs::sheet_of(&few(&mut random))));
    sheets.extend((0..40).map(|_| inputs::sheet_of(&few_with_faults(&mut random))));
    for sheet in &sheets {
        for len in 0..=sheet.len().min(400) {
            let bytes = sheet[..len].to_vec();
            check(&mut comparison, &mut met, bytes);
        }
    }
    met.finish(&[0, 5, 6, 7, 12]);
    assert!(met.behind_refused > 0);
    comparison.finish();
}

#[test]
fn loose_sheets_and_random_bytes() {
    let (mut comparison, mut random) = Comparison::new("room, sheets of loosely made fields, and random bytes");
    let mut met = Met::default();
    for round in 0..40_000 {
        let bytes = if round % 2 == 0 {
            inputs::loose_sheet(&mut random)
        } else {
            let highest = random.pick(&[1, 3, 15, 33, 255]);
            (0..random.below(60)).map(|_| random.below(highest + 1) as u8).collect()
        };
        check(&mut comparison, &mut met, bytes);
    }
    met.finish(&[0, 6, 12, 13, 14]);
    comparison.finish();
}

/// About 4,096 entries or 32,768 arcs, with faults near the end, and damaged.
#[test]
fn long_sheets() {
    let (mut comparison, mut random) = Comparison::new("room, sheets as long as the greatest graph and longer");
    let mut met = Met::default();
    for round in 0..240 {
        let mut entries = many(&mut random);
        if round % 3 == 1 {
            let number = entries.len() - 1 - random.below(6);
            let fault = random.pick(&FAULTS);
            accepted::plant(&mut random, &mut entries, number, fault);
        }
        let mut bytes = inputs::sheet_of(&entries);
        if round % 8 == 7 {
            inputs::damage(&mut random, &mut bytes);
        }
        check(&mut comparison, &mut met, bytes);
    }
    met.finish(&[0, 5, 6, 7, 8]);
    assert!(met.full_of_jobs > 0 && met.full_of_arcs > 0 && met.behind_refused > 0);
    comparison.finish();
}

#[test]
fn graphs_as_large_as_the_room() {
    let (mut comparison, mut random) = Comparison::new("room, graphs as large, larger and smaller");
    for _ in 0..1_500 {
        let bytes = inputs::sheet_of(&few(&mut random));
        let case = Enough::any(&mut random, bytes);
        comparison.check(case);
    }
    let mut long = 0;
    while long < 12 {
        let bytes = inputs::sheet_of(&many(&mut random));
        if taskgraph::room_of_sheet(&bytes).is_ok() {
            long += 1;
            let case = Enough::any(&mut random, bytes);
            comparison.check(case);
        }
    }
    comparison.finish();
}
