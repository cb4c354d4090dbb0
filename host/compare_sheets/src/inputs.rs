//! Random inputs: entries, sheets, and damage to sheets.

use second_implementation::sheet;
use taskgraph::raw::{Entry, ENTRY_WORDS, MAX_NAMES};

use crate::{random::Random, writing::to_second};

/// The most bytes of an entry: map, name, count, 32 names, class and grower.
pub const MOST_ENTRY: usize = 137;

/// docs/RULES.md's sheet of 29 bytes: jobs 1, 2, 3 and 4 needing 1 and 2.
pub const FOUR_JOBS: [u8; 29] = [1, 1, 0, 0, 0, 1, 2, 0, 0, 0, 1, 3, 0, 0, 0, 3, 4, 0, 0, 0, 2, 1, 0, 0, 0, 2, 0, 0, 0];

/// Offsets that no memory reaches, and at which a careless sum wraps.
pub const FAR_OFFSETS: [usize; 12] = [
    usize::MAX,
    usize::MAX - 1,
    usize::MAX - 3,
    usize::MAX - 4,
    usize::MAX - MOST_ENTRY,
    isize::MAX as usize,
    isize::MAX as usize + 1,
    u32::MAX as usize,
    u32::MAX as usize + 1,
    u32::MAX as usize + 6,
    i32::MAX as usize,
    1 << 48,
];

/// Any word, the ends of the range and small numbers more often than others.
pub fn word(random: &mut Random) -> u32 {
    match random.below(4) {
        0 => random.pick(&[0, 1, 255, 256, 65_535, 65_536, u32::MAX >> 1, 1 << 31, u32::MAX]),
        1 => random.below(40) as u32,
        _ => random.word(),
    }
}

/// A list's length: none, a few or many.
fn count(random: &mut Random) -> u32 {
    match random.below(4) {
        0 | 1 => random.below(4) as u32,
        2 => random.pick(&[0, 31, 32]),
        _ => random.below(MAX_NAMES + 1) as u32,
    }
}

/// An entry with all values on their limits and any words past its list.
pub fn entry(random: &mut Random) -> Entry {
    let mut names = [0; MAX_NAMES];
    names.fill_with(|| word(random));
    Entry {
        name: word(random),
        count: count(random),
        class: if random.once_in(2) { 0 } else { random.below(16) as u32 },
        grower: if random.once_in(2) { 0 } else { word(random) & 0xffff },
        names,
    }
}

/// An entry in which any of the values may lie off its limits.
pub fn loose_entry(random: &mut Random) -> Entry {
    let mut entry = entry(random);
    if random.once_in(3) {
        entry.count = random.pick(&COUNTS);
    }
    if random.once_in(3) {
        entry.class = random.pick(&CLASSES);
    }
    if random.once_in(3) {
        entry.grower = random.pick(&GROWERS);
    }
    entry
}

/// Counts on and off their limits, with those at which a product with 4 or a byte wraps.
pub const COUNTS: [u32; 14] = [0, 1, 2, 31, 32, 33, 34, 255, 256, 257, 1 << 30, (1 << 30) + 1, 1 << 31, u32::MAX];

/// Classes on and off their limits.
pub const CLASSES: [u32; 11] = [0, 1, 14, 15, 16, 17, 255, 256, 257, 1 << 31, u32::MAX];

/// Growers on and off their limits.
pub const GROWERS: [u32; 11] = [0, 1, 255, 256, 65_534, 65_535, 65_536, 65_537, 131_072, 1 << 31, u32::MAX];

/// The rows of `entries`.
pub fn rows(entries: &[Entry]) -> Vec<u32> {
    let mut rows = Vec::with_capacity(entries.len() * ENTRY_WORDS);
    for entry in entries {
        rows.extend_from_slice(&entry.to_row());
    }
    rows
}

/// The sheet of `entries`, whose values are on their limits, as the second implementation writes it.
pub fn sheet_of(entries: &[Entry]) -> Vec<u8> {
    let entries: Vec<sheet::Entry> = entries.iter().copied().map(to_second).collect();
    let mut bytes = vec![0; entries.len() * MOST_ENTRY];
    let len = sheet::write_sheet(&entries, &mut bytes).expect("the values are on their limits");
    bytes.truncate(len);
    bytes
}

/// `count` entries with all values on their limits.
pub fn entries(random: &mut Random, count: usize) -> Vec<Entry> {
    (0..count).map(|_| entry(random)).collect()
}

/// A valid sheet of fewer than `limit` entries.
pub fn valid_sheet(random: &mut Random, limit: usize) -> Vec<u8> {
    let count = random.below(limit);
    sheet_of(&entries(random, count))
}

/// Fields in order, each with a small chance of a wrong value, perhaps cut short at the end. A wrong
/// count too mostly has all its names behind it.
pub fn loose_sheet(random: &mut Random) -> Vec<u8> {
    let mut bytes = Vec::new();
    for _ in 0..random.below(6) {
        let map = if random.once_in(20) { random.byte() } else { random.byte() & 0x0e | 1 };
        bytes.push(map);
        bytes.extend_from_slice(&word(random).to_le_bytes());
        if map & 2 != 0 {
            let count = if random.once_in(6) { random.byte() } else { count(random) as u8 };
            bytes.push(count);
            let present = if random.once_in(8) { random.below(40) } else { usize::from(count) };
            for _ in 0..present {
                bytes.extend_from_slice(&word(random).to_le_bytes());
            }
        }
        if map & 4 != 0 {
            bytes.push(if random.once_in(6) { random.byte() } else { 1 + random.byte() % 15 });
        }
        if map & 8 != 0 {
            bytes.extend_from_slice(&(word(random) as u16).to_le_bytes());
        }
    }
    if random.once_in(2) {
        let end = random.below(bytes.len() + 1);
        bytes.truncate(end);
    }
    bytes
}

/// Damages a sheet in one place, or in a few.
pub fn damage(random: &mut Random, bytes: &mut Vec<u8>) {
    loop {
        let place = random.below(bytes.len() + 1);
        let end = (place + random.below(12)).min(bytes.len());
        match random.below(7) {
            0 if place < bytes.len() => bytes[place] = random.byte(),
            1 if place < bytes.len() => bytes[place] ^= 1 << random.below(8),
            2 if place < bytes.len() => bytes[place] = random.pick(&[0, 1, 2, 3, 15, 16, 32, 33, 255]),
            3 => bytes.insert(place, random.byte()),
            4 => drop(bytes.drain(place..end)),
            5 => {
                let copy = bytes[place..end].to_vec();
                let to = random.below(bytes.len() + 1);
                bytes.splice(to..to, copy);
            }
            _ => bytes.truncate(place),
        }
        if random.once_in(2) {
            return;
        }
    }
}
