//! Reading job sheets: the library and the second implementation answer alike.

use compare_sheets::{
    case::Comparison,
    inputs::{self, FAR_OFFSETS, FOUR_JOBS},
    reading::{EntryAt, WholeSheet},
};
use taskgraph::raw::{Entry, ENTRY_WORDS, MAX_NAMES};

/// An entry with the fields that the bits of `map` name.
fn entry_with(map: u8, count: u32) -> Entry {
    let mut names = [0; MAX_NAMES];
    names.iter_mut().zip(11..).for_each(|(name, number)| *name = number);
    let value = |bit: u8, value: u32| if map & bit != 0 { value } else { 0 };
    Entry { name: 0x0102_0304, count: value(2, count), class: value(4, 9), grower: value(8, 300), names }
}

#[test]
fn sheets_cut_at_every_place() {
    let (mut comparison, mut random) = Comparison::new("reading, sheets cut at every place");
    let mut sheets = vec![FOUR_JOBS.to_vec()];
    sheets.extend((0..200).map(|_| inputs::valid_sheet(&mut random, 9)));
    for sheet in &sheets {
        for len in 0..=sheet.len() {
            comparison.check(WholeSheet::with_room(sheet[..len].to_vec()));
        }
    }
    comparison.finish();
}

#[test]
fn every_byte_altered_to_every_value() {
    let (mut comparison, mut random) = Comparison::new("reading, every byte altered to every other value");
    let mut sheets = vec![FOUR_JOBS.to_vec()];
    sheets.extend((1..16).step_by(2).map(|map| inputs::sheet_of(&[entry_with(map, 2), entry_with(15, 1)])));
    sheets.push(inputs::sheet_of(&[entry_with(15, 32)]));
    sheets.extend((0..6).map(|_| inputs::valid_sheet(&mut random, 4)));
    for sheet in &sheets {
        for place in 0..sheet.len() {
            for value in (0..=255).filter(|value| *value != sheet[place]) {
                let mut altered = sheet.clone();
                altered[place] = value;
                comparison.check(WholeSheet::with_room(altered));
            }
        }
    }
    comparison.finish();
}

#[test]
fn wrong_counts_and_long_lists() {
    let (mut comparison, _) = Comparison::new("reading, wrong counts and long lists");
    for map in (3..16).step_by(4) {
        for count in 0..=255 {
            let mut sheet = inputs::sheet_of(&[entry_with(1, 0), entry_with(map | 2, 1)]);
            sheet[10] = count;
            let last_fields = sheet.split_off(15);
            sheet.truncate(11);
            sheet.resize(11 + 4 * usize::from(count), 1);
            let whole = sheet.len() - 11;
            let names_lens = (0..=whole).rev().filter(|len| *len < 6 || whole - *len < 6 || len % 20 == 0);
            for names_len in names_lens {
                sheet.truncate(11 + names_len);
                comparison.check(WholeSheet::with_room(sheet.clone()));
                let ended = [&sheet[..], &last_fields].concat();
                comparison.check(WholeSheet::with_room(ended));
            }
        }
    }
    comparison.finish();
}

#[test]
fn all_shortest_sheets() {
    let (mut comparison, _) = Comparison::new("reading, all sheets of one and two bytes, all pairs of map and value");
    for first in 0..=255 {
        comparison.check(WholeSheet::with_room(vec![first]));
        for second in 0..=255 {
            comparison.check(WholeSheet::with_room(vec![first, second]));
            comparison.check(WholeSheet::with_room(vec![first, 9, 0, 0, 0, second]));
            comparison.check(WholeSheet::with_room(vec![first, 9, 0, 0, 0, second, 0, 1, 0, 0, 0]));
        }
    }
    comparison.finish();
}

#[test]
fn damaged_sheets() {
    let (mut comparison, mut random) = Comparison::new("reading, damaged sheets");
    for _ in 0..60_000 {
        let mut sheet = inputs::valid_sheet(&mut random, 8);
        inputs::damage(&mut random, &mut sheet);
        comparison.check(WholeSheet::with_room(sheet));
    }
    comparison.finish();
}

#[test]
fn loose_sheets() {
    let (mut comparison, mut random) = Comparison::new("reading, sheets of loosely made fields");
    for _ in 0..60_000 {
        comparison.check(WholeSheet::with_room(inputs::loose_sheet(&mut random)));
    }
    comparison.finish();
}

#[test]
fn random_bytes() {
    let (mut comparison, mut random) = Comparison::new("reading, random bytes");
    for _ in 0..60_000 {
        let highest = random.pick(&[1, 3, 15, 33, 255]);
        let len = random.below(200);
        let sheet = (0..len).map(|_| random.below(highest + 1) as u8).collect();
        comparison.check(WholeSheet::with_room(sheet));
    }
    comparison.finish();
}

#[test]
fn rows_of_every_length() {
    let (mut comparison, mut random) = Comparison::new("reading, rows of every length");
    for round in 0..60 {
        let mut bytes = inputs::valid_sheet(&mut random, 5);
        if round % 3 == 0 {
            inputs::damage(&mut random, &mut bytes);
        }
        for rows_len in 0..=5 * ENTRY_WORDS {
            comparison.check(WholeSheet { bytes: bytes.clone(), rows_len });
        }
    }
    comparison.finish();
}

#[test]
fn entries_at_every_offset() {
    let (mut comparison, mut random) = Comparison::new("reading, entries at every offset and far beyond");
    for round in 0..400 {
        let mut bytes = inputs::valid_sheet(&mut random, 6);
        if round % 2 == 0 {
            inputs::damage(&mut random, &mut bytes);
        }
        let near = 0..bytes.len() + 8;
        let wrapped = (1..=4).map(|back| usize::MAX - bytes.len() - back);
        for at in near.chain(wrapped).chain(FAR_OFFSETS) {
            comparison.check(EntryAt { bytes: bytes.clone(), at });
        }
    }
    comparison.finish();
}

#[test]
fn sheets_of_32768_bytes() {
    let (mut comparison, mut random) = Comparison::new("reading, sheets of about 32,768 bytes, cut and damaged");
    for limit in [5, 32_764, 32_768, 32_769, 40_000] {
        let mut whole = Vec::new();
        while whole.len() < limit {
            whole.extend(inputs::sheet_of(&inputs::entries(&mut random, 1)));
        }
        comparison.check(WholeSheet::with_room(whole.clone()));
        for _ in 0..150 {
            let mut bytes = whole.clone();
            inputs::damage(&mut random, &mut bytes);
            comparison.check(WholeSheet::with_room(bytes));
            let len = whole.len() - random.below(300).min(whole.len());
            comparison.check(WholeSheet::with_room(whole[..len].to_vec()));
        }
    }
    comparison.check(WholeSheet::with_room([1, 0, 0, 0, 0].repeat(6_553)));
    comparison.finish();
}
