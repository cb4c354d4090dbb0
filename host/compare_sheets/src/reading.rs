//! Cases of reading job sheets.

use second_implementation::{
    refusal,
    sheet::{self, ReadError},
};
use taskgraph::raw::{Entry, Reading, Sheet, ENTRY_WORDS};

use crate::{
    case::{differ, Case},
    guarded, shrink,
};

/// A whole sheet: scanned, read into rows, and read entry by entry.
#[derive(Clone)]
pub struct WholeSheet {
    pub bytes: Vec<u8>,
    /// The words of the rows that are lent.
    pub rows_len: usize,
}

/// The fewest bytes of an entry: the map byte and the name.
const LEAST_ENTRY: usize = 5;

impl WholeSheet {
    /// With rows for all entries that so many bytes can hold, and some words more.
    pub fn with_room(bytes: Vec<u8>) -> WholeSheet {
        let rows_len = bytes.len() / LEAST_ENTRY * ENTRY_WORDS + LEAST_ENTRY;
        WholeSheet { bytes, rows_len }
    }
}

impl Case for WholeSheet {
    fn difference(&self) -> Option<String> {
        let lent = guarded::Sheet::new(&self.bytes);
        let sheet = lent.bytes();
        let mut entries = Vec::new();
        let outcome = sheet::read_sheet(sheet, &mut entries);
        let scanned = match outcome {
            Ok(()) => Sheet { number: 0, entries: entries.len(), at: 0 },
            Err(error) => Sheet { number: error.number(), entries: 0, at: error.offset() },
        };
        differ("tg_scan_sheet", taskgraph::raw::scan_sheet(sheet), scanned)
            .or_else(|| rows_difference(sheet, self.rows_len, scanned, &entries))
            .or_else(|| walk_difference(sheet))
    }

    fn smaller(&self) -> Box<dyn Iterator<Item = Self> + '_> {
        let entry_ends = entry_ends(&self.bytes);
        let later = entry_ends.into_iter().rev().map(|end| self.bytes[end..].to_vec());
        let bytes = later.chain(smaller_sheets(&self.bytes));
        let same_rows = bytes.map(|bytes| WholeSheet { bytes, ..*self });
        let fewer_rows = shrink::lower_size(self.rows_len).map(|rows_len| WholeSheet { rows_len, ..self.clone() });
        Box::new(fewer_rows.chain(same_rows))
    }

    fn show(&self) -> String {
        format!("sheet of {} bytes: {}\nrows of {} words", self.bytes.len(), shrink::hex(&self.bytes), self.rows_len)
    }
}

/// Smaller sheets of every kind.
pub(crate) fn smaller_sheets(bytes: &[u8]) -> impl Iterator<Item = Vec<u8>> + '_ {
    shrink::shorter(bytes, 1).chain(shrink::lower_bytes(bytes)).chain(shrink::fewer_fields(bytes))
}

/// Where the entries end that can be read.
pub(crate) fn entry_ends(sheet: &[u8]) -> Vec<usize> {
    let step = |at: &usize| Some(sheet::read_entry(sheet, *at).ok()??.1);
    std::iter::successors(step(&0), step).collect()
}

/// Compares the answer of the library's reader of whole sheets and every word of the rows.
fn rows_difference(sheet: &[u8], rows_len: usize, scanned: Sheet, entries: &[sheet::Entry]) -> Option<String> {
    let mut expected_rows = guarded::Output::new(rows_len);
    let mut library_rows = expected_rows.clone();
    let mut expected = scanned;
    if entries.len() * ENTRY_WORDS > rows_len {
        expected = Sheet { number: refusal::NO_ROOM, entries: 0, at: 0 };
    } else {
        for (row, entry) in expected_rows.lent().chunks_exact_mut(ENTRY_WORDS).zip(entries) {
            row.copy_from_slice(&from_second(entry).to_row());
        }
    }
    differ("tg_read_sheet", taskgraph::raw::read_sheet(sheet, library_rows.lent()), expected)
        .or_else(|| guarded::Output::difference("tg_read_sheet", &library_rows, &expected_rows))
}

/// Compares entry after entry, up to the end or the first refusal.
fn walk_difference(sheet: &[u8]) -> Option<String> {
    let mut at = 0;
    loop {
        let result = sheet::read_entry(sheet, at);
        let difference = entry_difference(sheet, at, &result);
        match result {
            Ok(Some((_, next))) if difference.is_none() => at = next,
            _ => return difference,
        }
    }
}

type EntryResult = Result<Option<(sheet::Entry, usize)>, ReadError>;

fn entry_difference(sheet: &[u8], at: usize, result: &EntryResult) -> Option<String> {
    let expected = match result {
        Ok(Some((entry, next))) => Reading { number: 0, found: 1, at: *next, entry: from_second(entry) },
        Ok(None) => Reading { at, ..Reading::default() },
        Err(error) => Reading { number: error.number(), at: error.offset(), ..Reading::default() },
    };
    differ(&format!("tg_read_entry at {at}"), taskgraph::raw::read_entry(sheet, at), expected)
}

/// One entry, at any offset.
#[derive(Clone)]
pub struct EntryAt {
    pub bytes: Vec<u8>,
    pub at: usize,
}

impl Case for EntryAt {
    fn difference(&self) -> Option<String> {
        let lent = guarded::Sheet::new(&self.bytes);
        entry_difference(lent.bytes(), self.at, &sheet::read_entry(lent.bytes(), self.at))
    }

    fn smaller(&self) -> Box<dyn Iterator<Item = Self> + '_> {
        let front = self.at.min(self.bytes.len());
        let opened = EntryAt { bytes: self.bytes[front..].to_vec(), at: self.at - front };
        let opened = (front > 0).then_some(opened);
        let same_offset = smaller_sheets(&self.bytes).map(|bytes| EntryAt { bytes, at: self.at });
        let lower_offset = shrink::lower_size(self.at).map(|at| EntryAt { at, ..self.clone() });
        Box::new(opened.into_iter().chain(same_offset).chain(lower_offset))
    }

    fn show(&self) -> String {
        format!("sheet of {} bytes: {}\noffset {}", self.bytes.len(), shrink::hex(&self.bytes), self.at)
    }
}

/// An entry of the second implementation in the library's form.
pub fn from_second(entry: &sheet::Entry) -> Entry {
    Entry {
        name: entry.name,
        count: entry.prerequisites.count as u32,
        class: entry.class,
        grower: entry.grower,
        names: entry.prerequisites.names,
    }
}
