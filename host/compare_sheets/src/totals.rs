//! Cases of the board of totals.

use second_implementation::totals::{self, Label, TotalsError};
use taskgraph::raw::{JobRecord, Totals};

use crate::{
    case::{differ, Case},
    shrink,
};

/// A row of words: read as words and, where they make whole records, as records too.
pub struct Row {
    pub words: Vec<u32>,
}

impl Case for Row {
    fn difference(&self) -> Option<String> {
        let words = differ(
            "tg_totals_of_words",
            taskgraph::raw::totals_of_words(&self.words),
            expected(totals::of_words(&self.words)),
        );
        if words.is_some() || self.words.len() % 2 != 0 {
            return words;
        }
        let (lent, records) = records_of(&self.words);
        differ("tg_totals_of_records", taskgraph::raw::totals_of_records(&lent), expected(totals::of_records(&records)))
    }

    fn smaller(&self) -> Box<dyn Iterator<Item = Self> + '_> {
        let shorter = shrink::shorter(&self.words, 2).chain(shrink::shorter(&self.words, 1));
        Box::new(shorter.chain(shrink::lower_words(&self.words)).map(|words| Row { words }))
    }

    fn show(&self) -> String {
        format!("{} words, label and class in hexadecimal:{}", self.words.len(), shrink::hex_words(&self.words, 32))
    }
}

/// The whole records of a row of words, as the library and as the second implementation take them.
fn records_of(words: &[u32]) -> (Vec<JobRecord>, Vec<totals::Record>) {
    let pairs = || words.chunks_exact(2);
    let lent = pairs().map(|pair| JobRecord { label: pair[0], class: pair[1] }).collect();
    (lent, pairs().map(|pair| totals::Record { label: pair[0], class: pair[1] }).collect())
}

/// A row of records as words, and minute values that may be a district's.
pub struct ByMinutes {
    pub words: Vec<u32>,
    pub minutes: Vec<u32>,
}

impl Case for ByMinutes {
    fn difference(&self) -> Option<String> {
        let (lent, records) = records_of(&self.words);
        differ(
            "tg_totals_by_minutes",
            taskgraph::raw::totals_by_minutes(&lent, &self.minutes),
            expected(totals::by_minutes(&records, &self.minutes)),
        )
    }

    fn smaller(&self) -> Box<dyn Iterator<Item = Self> + '_> {
        let words = shrink::shorter(&self.words, 2).chain(shrink::lower_words(&self.words));
        let minutes = shrink::shorter(&self.minutes, 1).chain(shrink::lower_words(&self.minutes));
        Box::new(
            words
                .map(|words| ByMinutes { words, minutes: self.minutes.clone() })
                .chain(minutes.map(|minutes| ByMinutes { words: self.words.clone(), minutes })),
        )
    }

    fn show(&self) -> String {
        let ByMinutes { words, minutes } = self;
        let row = shrink::hex_words(words, 32);
        format!("minutes {minutes:?}, {} words, label and class in hexadecimal:{row}", words.len())
    }
}

/// What the library is to answer.
pub fn expected(result: Result<totals::Totals, TotalsError>) -> Totals {
    match result {
        Ok(totals) => Totals {
            number: 0,
            jobs: Label::ALL.map(|label| totals.under(label).jobs),
            minutes: Label::ALL.map(|label| totals.under(label).minutes),
        },
        Err(error) => Totals { number: error.number(), ..Totals::default() },
    }
}
