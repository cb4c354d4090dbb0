//! Cases of the library's writer and reader, which undo each other (demand 2).

use taskgraph::raw::{Entry, Sheet, SheetWritten, ENTRY_WORDS, MAX_NAMES};

use crate::{
    case::{differ, Case},
    inputs::MOST_ENTRY,
    reading::smaller_sheets,
    shrink,
    writing::from_row,
};

/// Rows with all values on their limits: written and read back they are the same, but for the names
/// past each count, which come back as 0.
pub struct WrittenAndRead {
    pub rows: Vec<u32>,
}

impl Case for WrittenAndRead {
    fn difference(&self) -> Option<String> {
        let entries = self.rows.len() / ENTRY_WORDS;
        let mut sheet = vec![0; entries * MOST_ENTRY];
        let written = taskgraph::raw::write_sheet(&self.rows, &mut sheet);
        let expected = SheetWritten { number: 0, entry: entries, at: written.at };
        if written != expected {
            return differ("tg_write_sheet", written, expected);
        }
        let mut read_back = vec![u32::MAX; self.rows.len()];
        let read = taskgraph::raw::read_sheet(&sheet[..written.at], &mut read_back);
        differ("tg_read_sheet", read, Sheet { number: 0, entries, at: 0 })
            .or_else(|| differ("the rows", read_back, with_cleared_tails(&self.rows)))
    }

    fn smaller(&self) -> Box<dyn Iterator<Item = Self> + '_> {
        let rows = shrink::shorter(&self.rows, ENTRY_WORDS).chain(shrink::lower_words(&self.rows));
        Box::new(rows.map(|rows| WrittenAndRead { rows }))
    }

    fn show(&self) -> String {
        format!("rows in hexadecimal:{}", shrink::hex_words(&self.rows, ENTRY_WORDS))
    }
}

fn with_cleared_tails(rows: &[u32]) -> Vec<u32> {
    let mut rows = rows.to_vec();
    for row in rows.chunks_exact_mut(ENTRY_WORDS) {
        let Entry { count, .. } = from_row(row);
        row[ENTRY_WORDS - MAX_NAMES..][count as usize..].fill(0);
    }
    rows
}

/// A sheet, perhaps damaged: where the library accepts it, what it read is written as the same bytes.
pub struct ReadAndWritten {
    pub sheet: Vec<u8>,
}

impl ReadAndWritten {
    pub fn is_accepted(&self) -> bool {
        taskgraph::raw::scan_sheet(&self.sheet).number == 0
    }
}

impl Case for ReadAndWritten {
    fn difference(&self) -> Option<String> {
        if !self.is_accepted() {
            return None;
        }
        let entries = taskgraph::raw::scan_sheet(&self.sheet).entries;
        let mut rows = vec![u32::MAX; entries * ENTRY_WORDS];
        let read = taskgraph::raw::read_sheet(&self.sheet, &mut rows);
        let mut bytes = vec![0; self.sheet.len()];
        let written = taskgraph::raw::write_sheet(&rows, &mut bytes);
        differ("tg_read_sheet", read, Sheet { number: 0, entries, at: 0 })
            .or_else(|| differ("tg_write_sheet", written, SheetWritten { number: 0, entry: entries, at: bytes.len() }))
            .or_else(|| differ("the bytes", &bytes, &self.sheet))
    }

    fn smaller(&self) -> Box<dyn Iterator<Item = Self> + '_> {
        Box::new(smaller_sheets(&self.sheet).map(|sheet| ReadAndWritten { sheet }))
    }

    fn show(&self) -> String {
        format!("sheet of {} bytes: {}", self.sheet.len(), shrink::hex(&self.sheet))
    }
}
