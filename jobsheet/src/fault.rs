//! What can be wrong with a sheet; `words` has the words for it.

use std::fmt;

use taskgraph::Refusal;

use crate::number::Part;

/// Something wrong, and where.
#[derive(Clone, Debug, PartialEq, Eq)]
pub struct Fault {
    /// The entry's number, from 0; the header of a table is no entry.
    pub entry: Option<usize>,
    /// The line, from 1; bytes have none.
    pub line: Option<usize>,
    /// The offset of what is wrong, in bytes from the file's start.
    pub at: usize,
    /// The entry's name, where it can be read.
    pub job: Option<u32>,
    /// What is wrong.
    pub kind: Kind,
}

impl fmt::Display for Fault {
    /// The place, what is wrong, and what to do.
    fn fmt(&self, f: &mut fmt::Formatter<'_>) -> fmt::Result {
        write!(f, "{}: {} {}", self.place(), self.kind.what(), self.kind.advice())
    }
}

impl Fault {
    /// What is wrong with a line that is no entry.
    pub(crate) fn of_line(line: usize, (at, kind): (usize, Kind)) -> Fault {
        Fault { entry: None, line: Some(line), at, job: None, kind }
    }

    /// Where it is, as a person finds it.
    pub fn place(&self) -> String {
        let line = self.line.map(|line| format!("line {line}"));
        let entry = self.entry.map(|entry| format!("entry {entry}"));
        let job = self.job.map(|job| format!("job {job}"));
        let parts: Vec<String> = [line, entry, job].into_iter().flatten().collect();
        format!("{} (byte {})", parts.join(", "), self.at)
    }
}

/// A field of an entry in a packed sheet.
#[derive(Clone, Copy, Debug, PartialEq, Eq)]
pub enum Field {
    /// The job's name.
    Name,
    /// The list: its count and its names.
    List,
    /// The class.
    Class,
    /// The grower.
    Grower,
}

impl fmt::Display for Field {
    fn fmt(&self, f: &mut fmt::Formatter<'_>) -> fmt::Result {
        f.write_str(match self {
            Field::Name => "name",
            Field::List => "list",
            Field::Class => "class",
            Field::Grower => "grower",
        })
    }
}

/// Another entry than the one that is wrong.
#[derive(Clone, Copy, Debug, PartialEq, Eq)]
pub struct Other {
    /// Its number, from 0.
    pub entry: usize,
    /// Its line, from 1; bytes have none.
    pub line: Option<usize>,
}

impl fmt::Display for Other {
    fn fmt(&self, f: &mut fmt::Formatter<'_>) -> fmt::Result {
        write!(f, "entry {}", self.entry)?;
        self.line.map_or(Ok(()), |line| write!(f, " (line {line})"))
    }
}

/// Where a job that is needed and is not there could be.
#[derive(Clone, Copy, Debug, PartialEq, Eq)]
pub enum Elsewhere {
    /// No entry has its name.
    Nowhere,
    /// A sheet that comes before has it, and it is refused there.
    Lost,
    /// This entry has it, which comes later; and whether all that it needs itself is there.
    Later(Other, bool),
    /// This entry has it, and is refused or cannot be read.
    Refused(Other),
    /// This entry has it, and needs the one that is wrong in turn.
    Circle(Other),
}

/// What is wrong. Words that a file has are kept as they are shown.
#[derive(Clone, Debug, PartialEq, Eq)]
pub enum Kind {
    /// A line of more bytes than are read.
    LongLine(usize),
    /// A byte that no text has.
    NoText(u8),
    /// A word that is no number where one should stand.
    NotANumber(Part, String),
    /// Numbers with a comma or another mark between them.
    Marks(String),
    /// A number above the greatest that this part may be.
    Above(Part, String),
    /// A word that is none of the form's.
    UnknownWord(String),
    /// A word of the form for the second time, or after one that it comes before.
    Order(&'static str),
    /// A word of the form with nothing after it.
    Nothing(&'static str),
    /// A number after the job's name, or after that of its class or grower.
    Stray(String, Option<&'static str>),
    /// A header without a column of names.
    NoNameColumn,
    /// A column that the form does not have.
    UnknownColumn(String),
    /// A column for the second time.
    SecondColumn(&'static str),
    /// A row with more cells than the header.
    ManyCells(usize, usize),
    /// A row whose name is empty.
    NoName,
    /// A quoted cell that does not end on its line.
    OpenQuote,
    /// Something between a closing quote and the next cell.
    AfterQuote,
    /// The sheet ends inside this field (12).
    Cut(Field),
    /// A byte with which no entry can start (13).
    Map(u8),
    /// A value that this field may not have (14).
    Value(Field, u32),
    /// A list that is too long (5).
    LongList(usize),
    /// The job's own name in its list (5).
    OwnName,
    /// A name for the second time in the list (5).
    NameTwice(u32),
    /// The job's name, if it can be read, and a name in its list that no job has (6).
    UnknownName(Option<u32>, u32, Elsewhere),
    /// The name has a job already, of this entry, or one that was there before (7).
    NamePresent(u32, Option<Other>),
    /// As many jobs as the graph takes are there (8).
    NoRoomForJob(u32),
    /// So many arcs are needed, so many left, of so many (8).
    NoRoomForArcs(usize, usize, u32),
    /// Another answer of the library.
    Other(Refusal),
}

impl Kind {
    /// The number of the list in `docs/NUMBERS.md`, where what is wrong has one.
    pub fn number(&self) -> Option<u32> {
        Some(match self {
            Kind::Above(Part::Class | Part::Grower, _) => 5,
            Kind::LongList(_) | Kind::OwnName | Kind::NameTwice(_) => 5,
            Kind::UnknownName(..) => 6,
            Kind::NamePresent(..) => 7,
            Kind::NoRoomForJob(_) | Kind::NoRoomForArcs(..) => 8,
            Kind::Cut(_) => 12,
            Kind::Map(_) => 13,
            Kind::Value(..) => 14,
            Kind::Other(refusal) => refusal.number(),
            _ => return None,
        })
    }

    /// Whether the sheet cannot be packed for it. What only a graph refuses can be.
    pub fn hinders_packing(&self) -> bool {
        let of_a_graph = matches!(
            self,
            Kind::OwnName
                | Kind::NameTwice(_)
                | Kind::UnknownName(..)
                | Kind::NamePresent(..)
                | Kind::NoRoomForJob(_)
                | Kind::NoRoomForArcs(..)
        );
        !of_a_graph
    }
}
