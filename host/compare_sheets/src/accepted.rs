//! Random entries whose adds a fresh graph accepts, one after another, and faults that make it refuse one.

use std::collections::HashSet;

use taskgraph::raw::{Entry, MAX_NAMES};

use crate::{inputs, random::Random};

/// Times the factor of buckets, this is 1: so times a small number it is a name of the first bucket, of any bits.
const FIRST_BUCKET: u32 = 340_573_321;

/// Distinct names: one after another, any, or all of one bucket.
fn names(random: &mut Random, count: usize) -> Vec<u32> {
    let first = random.pick(&[0, 1, 1_000, u32::MAX - 8]);
    let kind = random.below(4);
    let mut met = HashSet::new();
    let mut names = Vec::with_capacity(count);
    for number in 0.. {
        if names.len() == count {
            break;
        }
        let name = match kind {
            0 | 1 => first.wrapping_add(number),
            2 => FIRST_BUCKET.wrapping_mul(number),
            _ => inputs::word(random),
        };
        if met.insert(name) {
            names.push(name);
        }
    }
    names
}

/// `count` entries, each of which lists at most `longest` jobs before it: all are accepted as long as there is room.
pub fn entries(random: &mut Random, count: usize, longest: usize) -> Vec<Entry> {
    let names = names(random, count);
    let lists = random.pick(&[1, 2, 4]);
    let mut entries = Vec::with_capacity(count);
    for (number, name) in names.iter().enumerate() {
        let mut entry = Entry { name: *name, ..Entry::default() };
        if random.once_in(2) {
            entry.class = random.below(16) as u32;
            entry.grower = random.pick(&[0, 1, 65_535]);
        }
        if random.once_in(lists) {
            let wanted = if lists == 1 { longest } else { random.below(longest + 1) };
            list(random, &mut entry, &names[..number], wanted);
        }
        entries.push(entry);
    }
    entries
}

/// Gives an entry a list of so many of the names before it, or of all, each once.
pub fn list(random: &mut Random, entry: &mut Entry, before: &[u32], wanted: usize) {
    let wanted = wanted.min(before.len());
    while (entry.count as usize) < wanted {
        let listed = before[random.below(before.len())];
        if !entry.names[..entry.count as usize].contains(&listed) {
            entry.names[entry.count as usize] = listed;
            entry.count += 1;
        }
    }
}

/// What an add can be refused by, apart from its graph's size.
#[derive(Clone, Copy, Debug)]
pub enum Fault {
    OwnName,
    NameTwice,
    /// A listed name that no entry has.
    Unknown,
    /// A listed name that this entry or a later one has.
    Later,
    /// A name that an earlier entry has.
    Present,
}

pub const FAULTS: [Fault; 5] = [Fault::OwnName, Fault::NameTwice, Fault::Unknown, Fault::Later, Fault::Present];

/// Puts a fault into the entry of a number.
pub fn plant(random: &mut Random, entries: &mut [Entry], number: usize, fault: Fault) {
    let earlier = if number == 0 { None } else { Some(entries[random.below(number)].name) };
    let later = entries[number + random.below(entries.len() - number)].name;
    let entry = &mut entries[number];
    let listed = match fault {
        Fault::OwnName => entry.name,
        Fault::NameTwice if entry.count > 0 => entry.names[random.below(entry.count as usize)],
        Fault::NameTwice | Fault::Unknown => random.word(),
        Fault::Later => later,
        Fault::Present => {
            entry.name = earlier.unwrap_or(entry.name);
            return;
        }
    };
    insert(random, entry, listed);
}

/// Puts a name anywhere in the list, which loses its last if it is full.
fn insert(random: &mut Random, entry: &mut Entry, name: u32) {
    let count = entry.count as usize;
    let place = random.below(count.min(MAX_NAMES - 1) + 1);
    entry.names[place..].rotate_right(1);
    entry.names[place] = name;
    entry.count = (count + 1).min(MAX_NAMES) as u32;
}
