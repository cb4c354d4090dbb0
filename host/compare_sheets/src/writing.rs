//! Cases of writing job sheets.

use std::convert::TryInto;

use second_implementation::{
    refusal,
    sheet::{self, Names, WriteError},
};
use taskgraph::raw::{Entry, SheetWritten, Written, ENTRY_WORDS};

use crate::{
    case::{differ, Case},
    guarded::Output,
    shrink,
};

/// One entry, written at an offset of an output.
#[derive(Clone)]
pub struct EntryAt {
    pub entry: Entry,
    pub at: usize,
    pub out_len: usize,
}

impl Case for EntryAt {
    fn difference(&self) -> Option<String> {
        let mut expected_out = Output::new(self.out_len);
        let mut library_out = expected_out.clone();
        let expected = match sheet::write_entry(&to_second(self.entry), expected_out.lent(), self.at) {
            Ok(at) => Written { number: 0, at },
            Err(error @ WriteError::Value { at, .. }) => Written { number: error.number(), at },
            Err(error @ WriteError::NoRoom) => Written { number: error.number(), at: 0 },
        };
        differ("tg_write_entry", taskgraph::raw::write_entry(library_out.lent(), self.at, self.entry), expected)
            .or_else(|| Output::difference("tg_write_entry", &library_out, &expected_out))
    }

    fn smaller(&self) -> Box<dyn Iterator<Item = Self> + '_> {
        let lowered = |row: Vec<u32>| EntryAt { entry: from_row(&row), ..*self };
        let mut entries = Vec::new();
        entries.extend(shrink::lower_words(&self.entry.to_row()).map(lowered));
        let offsets = shrink::lower_size(self.at).map(|at| EntryAt { at, ..*self });
        let outputs = shrink::lower_size(self.out_len).map(|out_len| EntryAt { out_len, ..*self });
        Box::new(entries.into_iter().chain(offsets).chain(outputs))
    }

    fn show(&self) -> String {
        let row = shrink::hex_words(&self.entry.to_row(), ENTRY_WORDS);
        format!("{ROW_LEGEND}{row}\noffset {}, output of {} bytes", self.at, self.out_len)
    }
}

const ROW_LEGEND: &str = "name, count, class, grower and 32 names in hexadecimal:";

/// The rows of a whole sheet, written to an output.
#[derive(Clone)]
pub struct WholeSheet {
    pub rows: Vec<u32>,
    pub out_len: usize,
}

impl Case for WholeSheet {
    fn difference(&self) -> Option<String> {
        let mut expected_out = Output::new(self.out_len);
        let mut library_out = expected_out.clone();
        let expected = expected(&self.rows, expected_out.lent());
        differ("tg_write_sheet", taskgraph::raw::write_sheet(&self.rows, library_out.lent()), expected)
            .or_else(|| Output::difference("tg_write_sheet", &library_out, &expected_out))
    }

    fn smaller(&self) -> Box<dyn Iterator<Item = Self> + '_> {
        let shorter = shrink::shorter(&self.rows, ENTRY_WORDS).chain(shrink::shorter(&self.rows, 1));
        let rows = shorter.chain(shrink::lower_words(&self.rows));
        let same_output = rows.map(|rows| WholeSheet { rows, ..*self });
        let shorter_output = shrink::lower_size(self.out_len).map(|out_len| WholeSheet { out_len, ..self.clone() });
        Box::new(same_output.chain(shorter_output))
    }

    fn show(&self) -> String {
        let rows = shrink::hex_words(&self.rows, ENTRY_WORDS);
        format!("{} words, {ROW_LEGEND}{rows}\noutput of {} bytes", self.rows.len(), self.out_len)
    }
}

/// What the second implementation writes for rows of words, and how it answers.
fn expected(rows: &[u32], out: &mut [u8]) -> SheetWritten {
    let whole_rows = rows.chunks_exact(ENTRY_WORDS);
    if !whole_rows.remainder().is_empty() {
        return SheetWritten { number: refusal::SIZE, ..SheetWritten::default() };
    }
    let entries: Vec<sheet::Entry> = whole_rows.map(|row| to_second(from_row(row))).collect();
    match sheet::write_sheet(&entries, out) {
        Ok(at) => SheetWritten { number: 0, entry: entries.len(), at },
        Err(error @ WriteError::Value { entry, at }) => SheetWritten { number: error.number(), entry, at },
        Err(error @ WriteError::NoRoom) => SheetWritten { number: error.number(), entry: 0, at: 0 },
    }
}

/// An entry of the library in the second implementation's form.
pub fn to_second(entry: Entry) -> sheet::Entry {
    sheet::Entry {
        name: entry.name,
        prerequisites: Names { count: entry.count as usize, names: entry.names },
        class: entry.class,
        grower: entry.grower,
    }
}

/// The entry that a row of words stands for.
pub fn from_row(row: &[u32]) -> Entry {
    let names = row[4..].try_into().expect("a row has 36 words");
    Entry { name: row[0], count: row[1], class: row[2], grower: row[3], names }
}
