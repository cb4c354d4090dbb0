//! The words for what is wrong with a sheet, and for what to do about it.

use taskgraph::raw::MAX_NAMES;

use crate::{
    fault::{Elsewhere, Field, Kind},
    number::{counted, grouped, Part},
};

impl Kind {
    /// What is wrong, as a sentence.
    pub fn what(&self) -> String {
        match self {
            Kind::LongLine(most) => format!("the line has more than {} bytes.", grouped(*most)),
            Kind::NoText(b'\r') => "the line has a carriage return that does not end it.".into(),
            Kind::NoText(byte) => format!("the line has the byte {byte:#04x}, which is not text."),
            Kind::NotANumber(part, word) => format!("{word} is not a number, so it cannot be a {part}."),
            Kind::Marks(word) => format!("{word} is not one number."),
            Kind::Above(part, word) => format!("{part} {word} is above {}.", grouped(part.most() as usize)),
            Kind::UnknownWord(word) => format!("{word} is not a word of a sheet."),
            Kind::Order(word) => format!("the word {word} is repeated, or comes too late."),
            Kind::Nothing(word) => format!("nothing follows the word {word}."),
            Kind::Stray(word, None) => format!("{word} follows the job's name."),
            Kind::Stray(word, Some(after)) => format!("{word} follows the number of the {after}."),
            Kind::NoNameColumn => "the header has no column called name.".into(),
            Kind::UnknownColumn(word) => format!("the header has an unknown column, {word}."),
            Kind::SecondColumn(word) => format!("the header has the column {word} twice."),
            Kind::ManyCells(cells, columns) => {
                format!("the row has {}, but the header has {columns}.", counted(*cells, "cell"))
            }
            Kind::NoName => "the name cell is empty.".into(),
            Kind::OpenQuote => "a quoted cell does not end on its line.".into(),
            Kind::AfterQuote => "there is text between a closing quote and the end of the cell.".into(),
            Kind::Cut(field) => format!("the sheet ends inside this entry, in its {field}."),
            Kind::Map(byte) => format!("no entry can start with the byte {byte:#04x}."),
            Kind::Value(field, value) => wrong_value(*field, *value),
            Kind::LongList(count) => format!("it needs {}; a list has at most {MAX_NAMES}.", counted(*count, "job")),
            Kind::OwnName => "it needs itself.".into(),
            Kind::NameTwice(name) => format!("it lists job {name} twice."),
            Kind::UnknownName(_, name, place) => unknown_name(*name, *place),
            Kind::NamePresent(name, Some(other)) => format!("the name {name} is taken by {other}."),
            Kind::NamePresent(name, None) => {
                format!("the name {name} is taken by a job that is there before this sheet.")
            }
            Kind::NoRoomForJob(jobs) => {
                format!("there is no room for it beside {}.", counted(*jobs as usize, "job"))
            }
            Kind::NoRoomForArcs(needed, left, arcs) => format!(
                "there is no room for its list: it needs {} (left: {} of {}).",
                counted(*needed, "arc"),
                grouped(*left),
                grouped(*arcs as usize)
            ),
            Kind::Other(refusal) => format!("{refusal}."),
        }
    }

    /// What to do about it, as a sentence.
    pub fn advice(&self) -> String {
        match self {
            Kind::LongLine(_) => "Write one job a line, and long comments on several lines.".into(),
            Kind::NoText(b'\r') => "Save the sheet with lines that end as on Linux or Windows.".into(),
            Kind::NoText(_) => "Save the sheet as plain text (UTF-8); a packed sheet is read with --from bytes.".into(),
            Kind::NotANumber(Part::Name, _) => {
                "Write a job's name in decimal digits only; a comment begins with #.".into()
            }
            Kind::NotANumber(..) => "Write decimal digits only.".into(),
            Kind::Marks(_) => "Write each number in digits only, with spaces between numbers; a table begins with the \
                line name,needs,class,grower."
                .into(),
            Kind::Above(part, _) => format!("Choose one from 0 to {}.", grouped(part.most() as usize)),
            Kind::UnknownWord(_) | Kind::Order(_) => {
                "The words after a name are needs, class and grower, each at most once, in that order.".into()
            }
            Kind::Nothing("needs") => "List the names that it needs, or leave the word out.".into(),
            Kind::Nothing(word) => format!("Write the number of the {word}, or leave the word out."),
            Kind::Stray(_, None) => "Write the word needs before the names that it needs.".into(),
            Kind::Stray(..) => "Write one number there; write the names that it needs after the word needs.".into(),
            Kind::NoNameColumn | Kind::UnknownColumn(_) | Kind::SecondColumn(_) => {
                "The columns are name, needs, class and grower.".into()
            }
            Kind::ManyCells(..) => "Write the names that it needs in one cell, with spaces between them; remove cells \
                beyond the last column."
                .into(),
            Kind::NoName => "Write the job's name, a number.".into(),
            Kind::OpenQuote => "Close it on the same line; write a quote inside the cell twice.".into(),
            Kind::AfterQuote => "Quote the whole cell or none of it; write a quote inside the cell twice.".into(),
            Kind::Cut(_) => "Was all of it sent? Get it again from where it was packed.".into(),
            Kind::Map(_) => "The file is damaged here, or is not a packed sheet; the rest is not read.".into(),
            Kind::Value(..) => "Pack the sheet again.".into(),
            Kind::LongList(_) => "Add a job that needs some of them, and need that job instead.".into(),
            Kind::OwnName => "Remove its own name from the list.".into(),
            Kind::NameTwice(_) => "List each job once.".into(),
            Kind::UnknownName(own, name, place) => find_name(*own, *name, *place),
            Kind::NamePresent(..) => {
                "Choose another name for this job, and use it in the lists that mean this job.".into()
            }
            Kind::NoRoomForJob(_) | Kind::NoRoomForArcs(..) => "Leave it for another sheet, on another day.".into(),
            Kind::Other(_) => "docs/NUMBERS.md says what a host does.".into(),
        }
    }
}

fn wrong_value(field: Field, value: u32) -> String {
    let (what, most) = match field {
        Field::Name => ("name", u32::MAX),
        Field::List => ("count of its list", MAX_NAMES as u32),
        Field::Class => ("class", Part::Class.most()),
        Field::Grower => ("grower", Part::Grower.most()),
    };
    format!("the {what} is written as {value}; where it is written, it must be 1 to {}.", grouped(most as usize))
}

fn unknown_name(name: u32, place: Elsewhere) -> String {
    match place {
        Elsewhere::Refused(other) => format!("it needs job {name}, which {other} does not add, as that has a fault."),
        Elsewhere::Lost => format!("it needs job {name}, which is refused in a sheet before this one."),
        _ => format!("it needs job {name}, which no earlier entry adds."),
    }
}

fn find_name(own: Option<u32>, name: u32, place: Elsewhere) -> String {
    let own = own.map_or_else(|| "this one".into(), |own| format!("job {own}"));
    match place {
        Elsewhere::Nowhere => format!(
            "No entry has that name: write one for job {name} before {own}, name a sheet that has it with --after, or \
             remove it from the list."
        ),
        Elsewhere::Lost => "Run jobsheet check on that sheet to see why.".into(),
        Elsewhere::Later(other, alone) => format!(
            "Entries are added in order: put job {name}, {other}, {}before {own}, or remove it from the list.",
            if alone { "" } else { "and what it needs " }
        ),
        Elsewhere::Refused(other) => format!("Correct {other} first, or remove job {name} from the list."),
        Elsewhere::Circle(other) => format!(
            "Job {name}, {other}, needs {own} in turn, itself or through others: no order helps. Remove a name \
             from one of their lists."
        ),
    }
}
