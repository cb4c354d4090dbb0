//! Sheets as a table: CSV with a header line (`docs/SHEETS.md`, "As a table").

use std::{borrow::Cow, fmt::Write};

use taskgraph::Job;

use crate::{
    draft::{Draft, Piece, Wrong},
    fault::{Fault, Kind},
    number::quoted,
    text::{lines, no_text, words},
    Form, Sheet,
};

/// The columns.
const COLUMNS: [&str; 4] = ["name", "needs", "class", "grower"];

/// What may stand between two cells: the header says which.
const SEPARATORS: [u8; 3] = [b',', b';', b'\t'];

/// Whether a line is the header of a table: one of its cells is `name`.
pub(crate) fn is_header(line: &[u8]) -> bool {
    let cells = Cells::of((0, line), separator(line)).cells;
    cells.iter().any(|(_, cell)| column(cell) == Some(0))
}

/// Whether a line has nothing but a comment, or cells that are empty.
pub(crate) fn is_blank(line: &[u8]) -> bool {
    is_comment(line) || Cells::of((0, line), separator(line)).say_nothing()
}

fn is_comment(line: &[u8]) -> bool {
    line.iter().find(|byte| !blank(byte)) == Some(&b'#')
}

fn separator(header: &[u8]) -> u8 {
    SEPARATORS.into_iter().find(|mark| header.contains(mark)).unwrap_or(b',')
}

fn column(cell: &[u8]) -> Option<usize> {
    COLUMNS.iter().position(|known| cell.eq_ignore_ascii_case(known.as_bytes()))
}

/// A cell without its quotes, and its offset.
type Cell<'a> = (usize, Cow<'a, [u8]>);

/// The cells of a line, and what is wrong with the quotes.
struct Cells<'a> {
    cells: Vec<Cell<'a>>,
    wrong: Vec<Wrong>,
}

impl<'a> Cells<'a> {
    fn say_nothing(&self) -> bool {
        filled(&self.cells) == 0 && self.wrong.is_empty()
    }

    fn of((at, line): Piece<'a>, separator: u8) -> Cells<'a> {
        let mut read = Cells { cells: Vec::new(), wrong: Vec::new() };
        let mut start = 0;
        loop {
            start += line[start..].iter().take_while(|byte| blank(byte) && **byte != separator).count();
            let past = match line.get(start) {
                Some(b'"') => read.quoted((at, line), start, separator),
                _ => {
                    let past = find(line, start, separator);
                    read.cells.push((at + start, Cow::Borrowed(&line[start..start + kept(&line[start..past])])));
                    past
                }
            };
            if past == line.len() {
                return read;
            }
            start = past + 1;
        }
    }

    /// Reads the quoted cell that starts there, and answers where the cell ends.
    fn quoted(&mut self, (at, line): Piece<'a>, start: usize, separator: u8) -> usize {
        let (mut cell, mut place) = (Vec::new(), start + 1);
        loop {
            match (line.get(place), line.get(place + 1)) {
                (Some(b'"'), Some(b'"')) => place += 1,
                (Some(b'"'), _) => break,
                (Some(_), _) => {}
                (None, _) => {
                    self.wrong.push((at + start, Kind::OpenQuote));
                    break;
                }
            }
            cell.push(line[place]);
            place += 1;
        }
        let blanks = cell.iter().take_while(|byte| blank(byte)).count();
        cell.truncate(kept(&cell).max(blanks));
        self.cells.push((at + start + 1 + blanks, Cow::Owned(cell.split_off(blanks))));
        let place = (place + 1).min(line.len());
        let past = find(line, place, separator);
        if let Some(more) = line[place..past].iter().position(|byte| !blank(byte)) {
            self.wrong.push((at + place + more, Kind::AfterQuote));
        }
        past
    }
}

fn blank(byte: &u8) -> bool {
    matches!(byte, b' ' | b'\t')
}

/// The length without blanks at the end.
fn kept(piece: &[u8]) -> usize {
    piece.iter().rposition(|byte| !blank(byte)).map_or(0, |last| last + 1)
}

/// Where the next separator stands, or the line's end.
fn find(line: &[u8], start: usize, separator: u8) -> usize {
    line[start..].iter().position(|byte| *byte == separator).map_or(line.len(), |more| start + more)
}

/// How many cells there are without the empty ones at the end, which a spreadsheet leaves of what was wider.
fn filled(cells: &[Cell<'_>]) -> usize {
    cells.iter().rposition(|(_, cell)| !cell.is_empty()).map_or(0, |last| last + 1)
}

/// The columns by their places in [`COLUMNS`], or what is wrong with the header.
fn header(line: Piece<'_>, separator: u8) -> Result<Vec<usize>, Vec<Wrong>> {
    let Cells { cells, mut wrong } = Cells::of(line, separator);
    let mut columns = Vec::new();
    for (at, cell) in &cells[..filled(&cells)] {
        match column(cell) {
            Some(known) if columns.contains(&known) => wrong.push((*at, Kind::SecondColumn(COLUMNS[known]))),
            Some(known) => columns.push(known),
            None => wrong.push((*at, Kind::UnknownColumn(quoted(cell)))),
        }
    }
    if !columns.contains(&0) {
        wrong.push((line.0, Kind::NoNameColumn));
    }
    if wrong.is_empty() {
        Ok(columns)
    } else {
        Err(wrong)
    }
}

/// Reads a table. Of one whose header is wrong no row is read.
pub fn read(content: &[u8]) -> Sheet {
    let mut sheet = Sheet::new(Form::Csv);
    let mut known: Option<(Vec<usize>, u8)> = None;
    for (line, piece) in lines(content) {
        if let Some(fault) = no_text(piece) {
            sheet.note(Fault::of_line(line, fault));
        } else if let Some((columns, separator)) = &known {
            let cells = Cells::of(piece, *separator);
            if !is_comment(piece.1) && !cells.say_nothing() {
                let (entry, wrong) = row(cells, columns, line).end();
                sheet.push(entry, wrong);
            }
        } else if !is_blank(piece.1) {
            let separator = separator(piece.1);
            match header(piece, separator) {
                Ok(columns) => known = Some((columns, separator)),
                Err(wrong) => {
                    wrong.into_iter().for_each(|fault| sheet.note(Fault::of_line(line, fault)));
                    return sheet;
                }
            }
        }
    }
    sheet
}

/// The row as an entry.
fn row(Cells { cells, wrong }: Cells<'_>, columns: &[usize], line: usize) -> Draft {
    let mut draft = Draft::new(line, cells[0].0);
    let quotes_right = wrong.is_empty();
    draft.wrong = wrong;
    if filled(&cells) > columns.len() {
        draft.wrong.push((cells[columns.len()].0, Kind::ManyCells(filled(&cells), columns.len())));
    }
    for (place, known) in columns.iter().enumerate() {
        let cell = cells.get(place).map_or((cells[0].0, &[][..]), |(at, cell)| (*at, &cell[..]));
        match COLUMNS[*known] {
            "needs" => words(cell).for_each(|word| draft.listed(word)),
            "name" if cell.1.is_empty() && quotes_right => draft.wrong.push((cell.0, Kind::NoName)),
            _ if cell.1.is_empty() => {}
            "name" => draft.name(cell),
            "class" => draft.class(cell),
            _ => draft.grower(cell),
        }
    }
    draft
}

/// The plain spelling of jobs.
pub fn write(jobs: &[Job]) -> String {
    let mut text = COLUMNS.join(",") + "\n";
    for Job { name, prerequisites, class, grower } in jobs {
        let needs: Vec<String> = prerequisites.iter().map(u32::to_string).collect();
        writeln!(text, "{name},{},{class},{grower}", needs.join(" "))
            .expect("a string takes all that is written to it");
    }
    text
}
