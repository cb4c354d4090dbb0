//! Job sheets (docs/SHEETS.md): entries that follow each other with nothing between.
//!
//! An entry opens with a map byte that says which fields follow: name, prerequisites, class, grower,
//! in that order. A field left out means an empty list, class 0 or grower 0.

use std::fmt;

use crate::refusal;

// The bits of the map byte.
const NAME: u8 = 1 << 0;
const PREREQUISITES: u8 = 1 << 1;
const CLASS: u8 = 1 << 2;
const GROWER: u8 = 1 << 3;
const UNUSED: u8 = 0xf0;

// The widths of the fields, in bytes.
const MAP_BYTES: usize = 1;
const NAME_BYTES: usize = 4;
const COUNT_BYTES: usize = 1;
const CLASS_BYTES: usize = 1;
const GROWER_BYTES: usize = 2;

/// The most names in a list of prerequisites.
pub const MAX_NAMES: usize = 32;
/// The highest class.
pub const MAX_CLASS: u32 = 15;
/// The highest number of a grower.
pub const MAX_GROWER: u32 = 65_535;

/// A list of names. Only the first `count` belong to it; a list that was read has 0 in the others.
/// A count over [`MAX_NAMES`] can be held, for the writer to refuse.
#[derive(Clone, Copy, Debug, Default, PartialEq, Eq)]
pub struct Names {
    pub count: usize,
    pub names: [u32; MAX_NAMES],
}

/// A job as a sheet has it. Values off their limits can be held, for the writer to refuse.
#[derive(Clone, Copy, Debug, Default, PartialEq, Eq)]
pub struct Entry {
    pub name: u32,
    pub prerequisites: Names,
    pub class: u32,
    pub grower: u32,
}

/// The words of a row: name, count, class, grower, and a word for each name that a list can have.
pub const ROW_WORDS: usize = 4 + MAX_NAMES;

impl Entry {
    /// The entry of a row of words. A row that is too short has 0 in what it lacks.
    pub fn of_row(row: &[u32]) -> Entry {
        let word = |place: usize| row.get(place).copied().unwrap_or(0);
        let mut prerequisites = Names { count: word(1) as usize, ..Names::default() };
        prerequisites.names.iter_mut().enumerate().for_each(|(place, name)| *name = word(4 + place));
        Entry { name: word(0), prerequisites, class: word(2), grower: word(3) }
    }

    /// The row of words of the entry.
    pub fn to_row(&self) -> [u32; ROW_WORDS] {
        let mut row = [0; ROW_WORDS];
        row[..4].copy_from_slice(&[self.name, self.prerequisites.count as u32, self.class, self.grower]);
        row[4..].copy_from_slice(&self.prerequisites.names);
        row
    }
}

/// Why a sheet cannot be read, with the offset of the field from the sheet's start.
#[derive(Clone, Copy, Debug, PartialEq, Eq)]
pub enum ReadError {
    /// The sheet ends inside the field.
    Cut(usize),
    /// The map byte has bit 0 clear, or one of bits 4 to 7 set.
    Map(usize),
    /// The field's value is off its limits.
    Value(usize),
}

impl ReadError {
    pub fn number(self) -> u32 {
        match self {
            ReadError::Cut(_) => refusal::CUT,
            ReadError::Map(_) => refusal::MAP,
            ReadError::Value(_) => refusal::VALUE,
        }
    }

    pub fn offset(self) -> usize {
        match self {
            ReadError::Cut(at) | ReadError::Map(at) | ReadError::Value(at) => at,
        }
    }
}

impl fmt::Display for ReadError {
    fn fmt(&self, f: &mut fmt::Formatter<'_>) -> fmt::Result {
        let what = match self {
            ReadError::Cut(_) => "the sheet ends inside a field",
            ReadError::Map(_) => "a wrong map byte",
            ReadError::Value(_) => "a value off its limits",
        };
        write!(f, "{what}, at offset {}", self.offset())
    }
}

impl std::error::Error for ReadError {}

/// Why entries cannot be written.
#[derive(Clone, Copy, Debug, PartialEq, Eq)]
pub enum WriteError {
    /// A value of entry number `entry` is off its limits; `at` is the offset of the first such field
    /// from that entry's start.
    Value { entry: usize, at: usize },
    /// The output lacks bytes.
    NoRoom,
}

impl WriteError {
    pub fn number(self) -> u32 {
        match self {
            WriteError::Value { .. } => refusal::VALUE,
            WriteError::NoRoom => refusal::NO_ROOM,
        }
    }
}

impl fmt::Display for WriteError {
    fn fmt(&self, f: &mut fmt::Formatter<'_>) -> fmt::Result {
        match self {
            WriteError::Value { entry, at } => {
                write!(f, "entry {entry} has a value off its limits, at its offset {at}")
            }
            WriteError::NoRoom => f.write_str("the output is too short"),
        }
    }
}

impl std::error::Error for WriteError {}

/// A place in a sheet that moves on with each field.
struct Cursor<'a> {
    sheet: &'a [u8],
    at: usize,
}

impl<'a> Cursor<'a> {
    /// The next `len` bytes; `field` is where their field starts.
    fn take(&mut self, len: usize, field: usize) -> Result<&'a [u8], ReadError> {
        let rest = &self.sheet[self.at..];
        let bytes = rest.get(..len).ok_or(ReadError::Cut(field))?;
        self.at += len;
        Ok(bytes)
    }

    fn map(&mut self) -> Result<u8, ReadError> {
        let field = self.at;
        let map = self.take(MAP_BYTES, field)?[0];
        if map & NAME == 0 || map & UNUSED != 0 {
            return Err(ReadError::Map(field));
        }
        Ok(map)
    }

    fn name(&mut self) -> Result<u32, ReadError> {
        let bytes = self.take(NAME_BYTES, self.at)?;
        Ok(u32::from_le_bytes([bytes[0], bytes[1], bytes[2], bytes[3]]))
    }

    /// The bytes of the names of a list.
    fn prerequisites(&mut self) -> Result<&'a [u8], ReadError> {
        let field = self.at;
        let count = usize::from(self.take(COUNT_BYTES, field)?[0]);
        if count == 0 || count > MAX_NAMES {
            return Err(ReadError::Value(field));
        }
        self.take(count * NAME_BYTES, field)
    }

    fn class(&mut self) -> Result<u32, ReadError> {
        let field = self.at;
        let class = u32::from(self.take(CLASS_BYTES, field)?[0]);
        if class == 0 || class > MAX_CLASS {
            return Err(ReadError::Value(field));
        }
        Ok(class)
    }

    fn grower(&mut self) -> Result<u32, ReadError> {
        let field = self.at;
        let bytes = self.take(GROWER_BYTES, field)?;
        let grower = u32::from(u16::from_le_bytes([bytes[0], bytes[1]]));
        if grower == 0 {
            return Err(ReadError::Value(field));
        }
        Ok(grower)
    }
}

/// The fields of an entry, judged, with the names of its list still in the sheet.
struct Fields<'a> {
    name: u32,
    prerequisites: &'a [u8],
    class: u32,
    grower: u32,
    /// The offset past the entry.
    end: usize,
}

impl<'a> Fields<'a> {
    /// The fields of the entry that opens at `at`, which is below the sheet's end. Kept inside the
    /// loop over the entries, where it runs once for each.
    #[inline(always)]
    fn read(sheet: &'a [u8], at: usize) -> Result<Fields<'a>, ReadError> {
        let mut cursor = Cursor { sheet, at };
        let map = cursor.map()?;
        let name = cursor.name()?;
        let prerequisites = if map & PREREQUISITES != 0 { cursor.prerequisites()? } else { &[] };
        let class = if map & CLASS != 0 { cursor.class()? } else { 0 };
        let grower = if map & GROWER != 0 { cursor.grower()? } else { 0 };
        Ok(Fields { name, prerequisites, class, grower, end: cursor.at })
    }

    /// Stores them in `entry`, which is blank: no entry is moved once it is made.
    fn store(&self, entry: &mut Entry) {
        entry.name = self.name;
        entry.class = self.class;
        entry.grower = self.grower;
        let list = &mut entry.prerequisites;
        list.count = self.prerequisites.len() / NAME_BYTES;
        for (name, bytes) in list.names.iter_mut().zip(self.prerequisites.chunks_exact(NAME_BYTES)) {
            *name = u32::from_le_bytes([bytes[0], bytes[1], bytes[2], bytes[3]]);
        }
    }
}

/// The entry at offset `at` and the offset past it, or `None` at the sheet's end and beyond.
pub fn read_entry(sheet: &[u8], at: usize) -> Result<Option<(Entry, usize)>, ReadError> {
    if at >= sheet.len() {
        return Ok(None);
    }
    let fields = Fields::read(sheet, at)?;
    let mut entry = Entry::default();
    fields.store(&mut entry);
    Ok(Some((entry, fields.end)))
}

/// Reads a whole sheet and adds its entries to `entries`. A sheet that cannot be read adds none.
pub fn read_sheet(sheet: &[u8], entries: &mut Vec<Entry>) -> Result<(), ReadError> {
    let before = entries.len();
    let mut at = 0;
    while at < sheet.len() {
        match Fields::read(sheet, at) {
            Ok(fields) => {
                let number = entries.len();
                entries.push(Entry::default());
                fields.store(&mut entries[number]);
                at = fields.end;
            }
            Err(error) => {
                entries.truncate(before);
                return Err(error);
            }
        }
    }
    Ok(())
}

impl Entry {
    /// The map byte of the entry: a field of value 0 is left out.
    fn map(&self) -> u8 {
        let bit = |stands: bool, bit: u8| if stands { bit } else { 0 };
        NAME | bit(self.prerequisites.count > 0, PREREQUISITES)
            | bit(self.class > 0, CLASS)
            | bit(self.grower > 0, GROWER)
    }

    /// The bytes that the entry takes, or the offset of its first field that is off its limits.
    fn encoded_len(&self) -> Result<usize, usize> {
        let map = self.map();
        let mut len = MAP_BYTES + NAME_BYTES;
        if self.prerequisites.count > MAX_NAMES {
            return Err(len);
        }
        if map & PREREQUISITES != 0 {
            len += COUNT_BYTES + self.prerequisites.count * NAME_BYTES;
        }
        if self.class > MAX_CLASS {
            return Err(len);
        }
        if map & CLASS != 0 {
            len += CLASS_BYTES;
        }
        if self.grower > MAX_GROWER {
            return Err(len);
        }
        if map & GROWER != 0 {
            len += GROWER_BYTES;
        }
        Ok(len)
    }

    /// Writes an entry with all values on their limits to the front of `out`, which has room for it,
    /// and gives the bytes it took.
    fn encode(&self, out: &mut [u8]) -> usize {
        let map = self.map();
        out[0] = map;
        out[MAP_BYTES..MAP_BYTES + NAME_BYTES].copy_from_slice(&self.name.to_le_bytes());
        let mut at = MAP_BYTES + NAME_BYTES;
        if map & PREREQUISITES != 0 {
            let list = &self.prerequisites.names[..self.prerequisites.count];
            out[at] = list.len() as u8;
            at += COUNT_BYTES;
            let bytes = &mut out[at..at + list.len() * NAME_BYTES];
            for (bytes, name) in bytes.chunks_exact_mut(NAME_BYTES).zip(list) {
                bytes.copy_from_slice(&name.to_le_bytes());
            }
            at += list.len() * NAME_BYTES;
        }
        if map & CLASS != 0 {
            out[at] = self.class as u8;
            at += CLASS_BYTES;
        }
        if map & GROWER != 0 {
            out[at..at + GROWER_BYTES].copy_from_slice(&(self.grower as u16).to_le_bytes());
            at += GROWER_BYTES;
        }
        at
    }
}

/// Writes `entry` at offset `at` of `out` and gives the offset past it. A refusal, whose entry number
/// is 0, leaves `out` unchanged.
pub fn write_entry(entry: &Entry, out: &mut [u8], at: usize) -> Result<usize, WriteError> {
    let len = entry.encoded_len().map_err(|at| WriteError::Value { entry: 0, at })?;
    let room = out.get_mut(at..).ok_or(WriteError::NoRoom)?;
    if room.len() < len {
        return Err(WriteError::NoRoom);
    }
    Ok(at + entry.encode(room))
}

/// Writes all `entries` to the front of `out` and gives the bytes they took. A refusal leaves `out`
/// unchanged.
pub fn write_sheet(entries: &[Entry], out: &mut [u8]) -> Result<usize, WriteError> {
    let mut len = 0;
    for (number, entry) in entries.iter().enumerate() {
        len += entry.encoded_len().map_err(|at| WriteError::Value { entry: number, at })?;
    }
    if len > out.len() {
        return Err(WriteError::NoRoom);
    }
    let mut at = 0;
    for entry in entries {
        at += entry.encode(&mut out[at..]);
    }
    Ok(at)
}

#[cfg(test)]
mod tests;
