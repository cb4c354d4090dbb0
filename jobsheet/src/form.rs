//! The three forms of a sheet, and which one a file has.

use taskgraph::raw;

use crate::{bytes, csv, text, Sheet};

/// A form of a sheet.
#[derive(Clone, Copy, Debug, PartialEq, Eq)]
pub enum Form {
    /// A packed sheet.
    Bytes,
    /// One job a line.
    Text,
    /// A table with a header line.
    Csv,
}

impl Form {
    /// As it is said on the command line and in answers.
    pub fn name(self) -> &'static str {
        match self {
            Form::Bytes => "bytes",
            Form::Text => "text",
            Form::Csv => "csv",
        }
    }

    /// The form of this name.
    pub fn named(name: &str) -> Option<Form> {
        [Form::Bytes, Form::Text, Form::Csv].into_iter().find(|form| form.name() == name)
    }

    /// The form of a file, or nothing where it could be bytes as well as text.
    ///
    /// An entry of a packed sheet begins with a byte below 16, and a text with one that is printed or a line feed. Only
    /// tab and carriage return can be both: there the whole file must tell.
    pub fn of(content: &[u8]) -> Option<Form> {
        match content.first() {
            Some(b'\t' | b'\r') => by_all(content),
            Some(byte) if byte.is_ascii_control() && *byte != b'\n' => Some(Form::Bytes),
            _ => Some(text_or_csv(content)),
        }
    }
}

/// The form in which all of it can be read; if there is none, text where no byte says otherwise.
fn by_all(content: &[u8]) -> Option<Form> {
    let written = text_or_csv(content);
    let packed = raw::scan_sheet(content).number == 0;
    let strange = |byte: &u8| byte.is_ascii_control() && !matches!(byte, b'\t' | b'\n' | b'\r');
    match (packed, read(content, written).faults.is_empty()) {
        (true, true) => None,
        (true, false) => Some(Form::Bytes),
        (false, true) => Some(written),
        (false, false) if content.iter().any(strange) => Some(Form::Bytes),
        (false, false) => Some(written),
    }
}

/// A table has a header as its first line that says anything.
fn text_or_csv(content: &[u8]) -> Form {
    let lines = text::lines(content).map(|(_, (_, line))| text::without_comment(line));
    let first = lines.into_iter().find(|line| !csv::is_blank(line));
    match first {
        Some(line) if csv::is_header(line) => Form::Csv,
        _ => Form::Text,
    }
}

/// Reads a file's content in a form.
pub fn read(content: &[u8], form: Form) -> Sheet {
    match form {
        Form::Bytes => bytes::read(content),
        Form::Text => text::read(content),
        Form::Csv => csv::read(content),
    }
}
