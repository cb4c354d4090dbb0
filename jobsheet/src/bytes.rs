//! Packed sheets: read by the library, which alone says what is wrong first (`docs/SHEETS.md`, "Reading").

use taskgraph::{
    raw::{self, Entry as Row, Reading, MAX_NAMES},
    Job, Refusal,
};

use crate::{
    draft::Wrong,
    fault::{Field, Kind},
    number::Part,
    sheet::Offsets,
    Entry, Form, Sheet,
};

/// The map byte's bits.
const LIST: u8 = 2;
const CLASS: u8 = 4;
const GROWER: u8 = 8;

/// Reads a packed sheet. After an entry with a wrong value the next one is read, as its length is known all the same;
/// where the sheet is cut or a map byte is wrong, nothing more can be.
pub fn read(content: &[u8]) -> Sheet {
    let mut sheet = Sheet::new(Form::Bytes);
    let mut next = Some(0);
    while let Some(at) = next {
        let reading = raw::read_entry(content, at);
        let walk = Walk::of(content, at);
        let rest = walk.name.map(|name| Job::new(name, &walk.names));
        let entry = Entry { line: None, at: walk.at, name: walk.name, job: None, rest };
        next = if reading.number != 0 {
            sheet.push(entry, first_by(&reading, walk.wrong));
            walk.past
        } else if reading.found != 0 {
            sheet.push(Entry { job: Some(job_of(&reading.entry)), rest: None, ..entry }, []);
            Some(reading.at)
        } else {
            None
        };
    }
    sheet
}

/// What is wrong, the library's answer first.
fn first_by(reading: &Reading, mut wrong: Vec<Wrong>) -> Vec<Wrong> {
    let at = reading.at;
    if wrong.first().map(|(at, kind)| (*at, kind.number())) != Some((at, Some(reading.number))) {
        let refusal = match reading.number {
            12 => Refusal::Cut { at },
            13 => Refusal::Map { at },
            _ => Refusal::Value { at },
        };
        wrong.insert(0, (at, Kind::Other(refusal)));
    }
    wrong
}

fn least_first(bytes: &[u8]) -> u32 {
    bytes.iter().rev().fold(0, |value, byte| value << 8 | u32::from(*byte))
}

fn job_of(row: &Row) -> Job {
    let Row { name, count, class, grower, names } = *row;
    Job { name, prerequisites: names[..count as usize].to_vec(), class, grower }
}

/// Where the parts of an entry stand, and all that is wrong with them.
#[derive(Default)]
struct Walk {
    at: Offsets,
    name: Option<u32>,
    /// The names of its list, if that can be read.
    names: Vec<u32>,
    wrong: Vec<Wrong>,
    /// Where the entry ends, if that can be told.
    past: Option<usize>,
}

impl Walk {
    fn of(content: &[u8], at: usize) -> Walk {
        let mut walk = Walk { at: Offsets { entry: at, name: at + 1, ..Offsets::default() }, ..Walk::default() };
        if let Some(map) = content.get(at) {
            walk.past = walk.fields(content, *map);
        }
        walk
    }

    /// Walks the fields, and answers where the entry ends.
    fn fields(&mut self, content: &[u8], map: u8) -> Option<usize> {
        if map & 1 == 0 || map > 15 {
            self.wrong.push((self.at.entry, Kind::Map(map)));
            return None;
        }
        let name = self.value(content, self.at.name, 4, Field::Name)?;
        self.name = Some(name);
        let mut at = self.at.name + 4;
        if map & LIST != 0 {
            let count = self.value(content, at, 1, Field::List)?;
            self.judge(at, Field::List, count, MAX_NAMES as u32);
            let past = at + 1 + 4 * count as usize;
            if past > content.len() {
                self.wrong.push((at, Kind::Cut(Field::List)));
                return None;
            }
            if (1..=MAX_NAMES as u32).contains(&count) {
                self.at.needs = (at + 1..past).step_by(4).collect();
                self.names = content[at + 1..past].chunks(4).map(least_first).collect();
            }
            at = past;
        }
        self.at.class = at;
        if map & CLASS != 0 {
            let class = self.value(content, at, 1, Field::Class)?;
            self.judge(at, Field::Class, class, Part::Class.most());
            at += 1;
        }
        self.at.grower = at;
        if map & GROWER != 0 {
            let grower = self.value(content, at, 2, Field::Grower)?;
            self.judge(at, Field::Grower, grower, Part::Grower.most());
            at += 2;
        }
        Some(at)
    }

    /// The number of so many bytes, least first, or a cut.
    fn value(&mut self, content: &[u8], at: usize, width: usize, field: Field) -> Option<u32> {
        match content.get(at..at + width) {
            Some(bytes) => Some(least_first(bytes)),
            None => {
                self.wrong.push((at, Kind::Cut(field)));
                None
            }
        }
    }

    fn judge(&mut self, at: usize, field: Field, value: u32, most: u32) {
        if value == 0 || value > most {
            self.wrong.push((at, Kind::Value(field, value)));
        }
    }
}
