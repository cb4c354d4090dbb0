//! Sheets as text: one job a line (`docs/SHEETS.md`, "As text").

use std::fmt::Write;

use taskgraph::Job;

use crate::{
    draft::{Draft, Piece, Wrong},
    fault::{Fault, Kind},
    number::quoted,
    Form, Sheet,
};

/// The longest line that is read, in bytes.
pub const MOST_LINE: usize = 65_536;

/// The words after a name, in their order.
const WORDS: [&str; 3] = ["needs", "class", "grower"];

/// The lines of a text, each with its number from 1, and without what ends it. A mark of UTF-8 at the very start is no
/// part of the first.
pub(crate) fn lines(content: &[u8]) -> impl Iterator<Item = (usize, Piece<'_>)> {
    let mut at = content.strip_prefix(b"\xef\xbb\xbf").map_or(0, |rest| content.len() - rest.len());
    content[at..].split(|byte| *byte == b'\n').enumerate().map(move |(place, line)| {
        let start = at;
        at += line.len() + 1;
        (place + 1, (start, line.strip_suffix(b"\r").unwrap_or(line)))
    })
}

/// What makes a line unreadable whatever it says.
pub(crate) fn no_text((at, line): Piece<'_>) -> Option<Wrong> {
    if line.len() > MOST_LINE {
        return Some((at, Kind::LongLine(MOST_LINE)));
    }
    let place = line.iter().position(|byte| byte.is_ascii_control() && *byte != b'\t')?;
    Some((at + place, Kind::NoText(line[place])))
}

/// The words of a piece with their offsets.
pub(crate) fn words((at, piece): Piece<'_>) -> impl Iterator<Item = Piece<'_>> {
    let mut rest = at;
    piece.split(|byte| matches!(byte, b' ' | b'\t')).filter_map(move |word| {
        let start = rest;
        rest += word.len() + 1;
        (!word.is_empty()).then_some((start, word))
    })
}

/// A line up to its comment.
pub(crate) fn without_comment(line: &[u8]) -> &[u8] {
    &line[..line.iter().position(|byte| *byte == b'#').unwrap_or(line.len())]
}

/// Reads a text.
pub fn read(content: &[u8]) -> Sheet {
    let mut sheet = Sheet::new(Form::Text);
    for (line, (at, text)) in lines(content) {
        if let Some(fault) = no_text((at, text)) {
            sheet.note(Fault::of_line(line, fault));
            continue;
        }
        let mut words = words((at, without_comment(text)));
        if let Some(name) = words.next() {
            let (entry, wrong) = read_line(line, name, words).end();
            sheet.push(entry, wrong);
        }
    }
    sheet
}

fn read_line<'a>(line: usize, name: Piece<'a>, words: impl Iterator<Item = Piece<'a>>) -> Draft {
    let mut reader = Reader { draft: Draft::new(line, name.0), word: None, astray: false };
    reader.draft.name(name);
    reader.astray = reader.draft.entry.name.is_none();
    words.for_each(|word| reader.take(word));
    reader.close();
    reader.draft
}

/// A line that is read after its name.
struct Reader {
    draft: Draft,
    /// The word of the form that was met last, by its place in [`WORDS`], its offset, and whether anything followed.
    word: Option<(usize, usize, bool)>,
    /// Whether a word came since that is none of the form's, or the name is none: who knows what numbers after it mean?
    astray: bool,
}

impl Reader {
    fn take(&mut self, word: Piece<'_>) {
        let known = WORDS.iter().position(|known| word.1.eq_ignore_ascii_case(known.as_bytes()));
        let number_due = matches!(self.word, Some((_, _, false)));
        match known {
            Some(known) => self.take_word(known, word.0),
            None if !number_due && word.1.iter().all(u8::is_ascii_alphabetic) => {
                self.draft.wrong.push((word.0, Kind::UnknownWord(quoted(word.1))));
                self.astray = true;
            }
            None if !self.astray => self.take_number(word),
            None => {}
        }
    }

    fn take_word(&mut self, known: usize, at: usize) {
        self.close();
        self.astray = false;
        if self.word.map_or(false, |(last, ..)| known <= last) {
            self.draft.wrong.push((at, Kind::Order(WORDS[known])));
        }
        self.word = Some((known, at, false));
    }

    /// Notes a word of the form with nothing after it.
    fn close(&mut self) {
        if let Some((known, at, false)) = self.word {
            self.draft.wrong.push((at, Kind::Nothing(WORDS[known])));
        }
    }

    fn take_number(&mut self, word: Piece<'_>) {
        let (known, followed) = match &mut self.word {
            Some((known, _, followed)) => (Some(WORDS[*known]), std::mem::replace(followed, true)),
            None => (None, false),
        };
        match known {
            Some("needs") => self.draft.listed(word),
            Some("class") if !followed => self.draft.class(word),
            Some("grower") if !followed => self.draft.grower(word),
            after => {
                let digits = word.1.iter().all(u8::is_ascii_digit);
                let shown = quoted(word.1);
                self.draft
                    .wrong
                    .push((word.0, if digits { Kind::Stray(shown, after) } else { Kind::UnknownWord(shown) }));
            }
        }
    }
}

/// The plain spelling of jobs: what is left out in bytes is left out here.
pub fn write(jobs: &[Job]) -> String {
    let mut text = String::new();
    for job in jobs {
        write_line(&mut text, job).expect("a string takes all that is written to it");
    }
    text
}

fn write_line(text: &mut String, job: &Job) -> std::fmt::Result {
    write!(text, "{}", job.name)?;
    if !job.prerequisites.is_empty() {
        text.push_str(" needs");
    }
    for name in &job.prerequisites {
        write!(text, " {name}")?;
    }
    if job.class > 0 {
        write!(text, " class {}", job.class)?;
    }
    if job.grower > 0 {
        write!(text, " grower {}", job.grower)?;
    }
    text.push('\n');
    Ok(())
}
