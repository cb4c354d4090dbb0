//! An entry while its line or row is read.

use taskgraph::Job;

use crate::{
    fault::Kind,
    number::{number, quoted, shown, NoNumber, Part},
    Entry,
};

/// A piece of a file and its offset.
pub(crate) type Piece<'a> = (usize, &'a [u8]);

/// What is wrong, and its offset.
pub(crate) type Wrong = (usize, Kind);

/// What was read so far, and what is wrong with it.
#[derive(Default)]
pub(crate) struct Draft {
    pub entry: Entry,
    pub wrong: Vec<Wrong>,
    job: Job,
}

impl Draft {
    /// An entry that starts there.
    pub fn new(line: usize, at: usize) -> Draft {
        let mut draft = Draft::default();
        draft.entry.line = Some(line);
        draft.entry.at.entry = at;
        draft
    }

    /// The number of a word; what is none is noted.
    pub fn number(&mut self, (at, word): Piece<'_>, part: Part) -> Option<u32> {
        let kind = match number(word) {
            Ok(value) => return Some(value),
            Err(NoNumber::Above) => Kind::Above(part, shown(word)),
            Err(NoNumber::NotDigits) if word.iter().any(|byte| matches!(byte, b',' | b';')) => {
                Kind::Marks(quoted(word))
            }
            Err(NoNumber::NotDigits) => Kind::NotANumber(part, quoted(word)),
        };
        self.wrong.push((at, kind));
        None
    }

    pub fn name(&mut self, word: Piece<'_>) {
        self.entry.at.name = word.0;
        self.entry.name = self.number(word, Part::Name);
    }

    pub fn listed(&mut self, word: Piece<'_>) {
        if let Some(name) = self.number(word, Part::Listed) {
            self.job.prerequisites.push(name);
            self.entry.at.needs.push(word.0);
        }
    }

    pub fn class(&mut self, word: Piece<'_>) {
        self.entry.at.class = word.0;
        self.job.class = self.number(word, Part::Class).unwrap_or(0);
    }

    pub fn grower(&mut self, word: Piece<'_>) {
        self.entry.at.grower = word.0;
        self.job.grower = self.number(word, Part::Grower).unwrap_or(0);
    }

    /// The entry, with its job, and what is wrong.
    pub fn end(mut self) -> (Entry, Vec<Wrong>) {
        self.job.name = self.entry.name.unwrap_or(0);
        self.entry.job = Some(self.job);
        (self.entry, self.wrong)
    }
}
