//! Writing job sheets: the library and the second implementation answer alike and leave the same bytes.

use compare_sheets::{
    case::Comparison,
    inputs::{self, CLASSES, COUNTS, FAR_OFFSETS, GROWERS, MOST_ENTRY},
    writing::{EntryAt, WholeSheet},
};
use taskgraph::raw::{Entry, ENTRY_WORDS, MAX_NAMES};

#[test]
fn entries_of_all_shapes_into_outputs_of_every_length() {
    let (mut comparison, mut random) = Comparison::new("writing, entries of all shapes into outputs of every length");
    for count in 0..=MAX_NAMES as u32 {
        for (class, grower) in [(0, 0), (15, 0), (0, 65_535), (1, 1)] {
            let entry = Entry { count, class, grower, ..inputs::entry(&mut random) };
            let end = inputs::sheet_of(&[entry]).len() + 3;
            for out_len in 0..=end {
                comparison.check(EntryAt { entry, at: 0, out_len });
                let at = random.below(40);
                comparison.check(EntryAt { entry, at, out_len: at + out_len });
            }
        }
    }
    comparison.finish();
}

#[test]
fn values_off_their_limits() {
    let (mut comparison, mut random) = Comparison::new("writing, values on and off their limits");
    for count in COUNTS {
        for class in CLASSES {
            for grower in GROWERS {
                let entry = Entry { count, class, grower, ..inputs::entry(&mut random) };
                for (at, out_len) in [(0, 0), (0, 4), (0, MOST_ENTRY), (3, MOST_ENTRY + 2), (9, 8)] {
                    comparison.check(EntryAt { entry, at, out_len });
                }
                comparison.check(EntryAt { entry, at: usize::MAX, out_len: MOST_ENTRY });
            }
        }
    }
    comparison.finish();
}

#[test]
fn offsets_at_and_beyond_the_end() {
    let (mut comparison, mut random) = Comparison::new("writing, offsets at and beyond the end");
    for _ in 0..1_500 {
        let entry = inputs::loose_entry(&mut random);
        let out_len = random.below(200);
        let wrapped = (0..=8).map(|forward| (usize::MAX - MOST_ENTRY) + 17 * forward);
        for at in (0..4).map(|past| out_len + past).chain(wrapped).chain(FAR_OFFSETS) {
            comparison.check(EntryAt { entry, at, out_len });
        }
    }
    comparison.finish();
}

#[test]
fn random_entries() {
    let (mut comparison, mut random) = Comparison::new("writing, random entries");
    for _ in 0..60_000 {
        let entry = inputs::loose_entry(&mut random);
        let out_len = random.below(2 * MOST_ENTRY);
        comparison.check(EntryAt { entry, at: random.below(MOST_ENTRY), out_len });
    }
    comparison.finish();
}

#[test]
fn sheets_into_outputs_of_every_length() {
    let (mut comparison, mut random) = Comparison::new("writing, sheets into outputs of every length");
    for round in 0..80 {
        let count = random.below(7);
        let mut entries = inputs::entries(&mut random, count);
        let end = inputs::sheet_of(&entries).len() + 3;
        if round % 4 == 0 && count > 0 {
            entries[random.below(count)] = inputs::loose_entry(&mut random);
        }
        let rows = inputs::rows(&entries);
        for out_len in 0..=end {
            comparison.check(WholeSheet { rows: rows.clone(), out_len });
        }
    }
    comparison.finish();
}

#[test]
fn rows_of_every_length() {
    let (mut comparison, mut random) = Comparison::new("writing, rows of every length");
    for round in 0..60 {
        let entries: Vec<Entry> = (0..5)
            .map(|_| if round % 2 == 0 { inputs::entry(&mut random) } else { inputs::loose_entry(&mut random) })
            .collect();
        let rows = inputs::rows(&entries);
        for len in 0..=5 * ENTRY_WORDS {
            let out_len = random.pick(&[0, 50, 5 * MOST_ENTRY]);
            comparison.check(WholeSheet { rows: rows[..len].to_vec(), out_len });
        }
    }
    comparison.finish();
}

#[test]
fn random_sheets() {
    let (mut comparison, mut random) = Comparison::new("writing, random sheets with entries off their limits");
    for _ in 0..30_000 {
        let count = random.below(12);
        let mut entries = inputs::entries(&mut random, count);
        let len = inputs::sheet_of(&entries).len();
        while count > 0 && random.once_in(3) {
            entries[random.below(count)] = inputs::loose_entry(&mut random);
        }
        let shorter = random.below(len + 1);
        let out_len = random.pick(&[0, shorter, len.saturating_sub(1), len, len + 1, len + 50]);
        comparison.check(WholeSheet { rows: inputs::rows(&entries), out_len });
    }
    comparison.finish();
}

#[test]
fn sheets_of_about_32768_bytes() {
    let (mut comparison, mut random) = Comparison::new("writing, sheets of about 32,768 bytes");
    for _ in 0..100 {
        let mut entries = inputs::entries(&mut random, 700);
        let len = inputs::sheet_of(&entries).len();
        for out_len in [len - 1, len, len + 1] {
            comparison.check(WholeSheet { rows: inputs::rows(&entries), out_len });
        }
        entries[random.below(700)] = inputs::loose_entry(&mut random);
        comparison.check(WholeSheet { rows: inputs::rows(&entries), out_len: len });
    }
    comparison.finish();
}
