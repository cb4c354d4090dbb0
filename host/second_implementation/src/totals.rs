//! The board of totals (docs/RULES.md, "The board and the day list"): how many jobs stand under each
//! label, and the sum of their minutes.

use std::fmt;

use crate::{minutes::Minutes, refusal};

/// The most records that the board takes.
pub const MAX_RECORDS: usize = 4_096;

/// How far a job has come.
#[derive(Clone, Copy, Debug, PartialEq, Eq)]
pub enum Label {
    Unexecuted,
    Executing,
    Finished,
}

impl Label {
    pub const ALL: [Label; 3] = [Label::Unexecuted, Label::Executing, Label::Finished];

    /// The label that a word of a record stands for, if it is one.
    pub fn from_word(word: u32) -> Option<Label> {
        Label::ALL.get(usize::try_from(word).ok()?).copied()
    }
}

/// What the board reads of a job, unjudged.
#[derive(Clone, Copy, Debug, PartialEq, Eq)]
pub struct Record {
    pub label: u32,
    pub class: u32,
}

/// The jobs under one label.
#[derive(Clone, Copy, Debug, Default, PartialEq, Eq)]
pub struct Sum {
    pub jobs: u32,
    pub minutes: u32,
}

/// The sums under each label.
#[derive(Clone, Copy, Debug, Default, PartialEq, Eq)]
pub struct Totals {
    sums: [Sum; 3],
}

impl Totals {
    pub fn under(&self, label: Label) -> Sum {
        self.sums[label as usize]
    }

    fn count(&mut self, record: Record, minutes: &Minutes) -> Result<(), TotalsError> {
        let label = Label::from_word(record.label).ok_or(TotalsError::Damaged)?;
        let minutes = minutes.of_class(record.class).ok_or(TotalsError::Damaged)?;
        let sum = &mut self.sums[label as usize];
        sum.jobs += 1;
        sum.minutes += minutes;
        Ok(())
    }
}

/// Why there are no totals.
#[derive(Clone, Copy, Debug, PartialEq, Eq)]
pub enum TotalsError {
    /// More than [`MAX_RECORDS`] records, or words that do not make whole records.
    Size,
    /// Minutes that no district can load.
    Minutes,
    /// A record with a wrong label or class.
    Damaged,
}

impl TotalsError {
    pub fn number(self) -> u32 {
        match self {
            TotalsError::Size => refusal::SIZE,
            TotalsError::Minutes => refusal::MINUTES,
            TotalsError::Damaged => refusal::DAMAGED,
        }
    }
}

impl fmt::Display for TotalsError {
    fn fmt(&self, f: &mut fmt::Formatter<'_>) -> fmt::Result {
        f.write_str(match self {
            TotalsError::Size => "the row has a wrong size",
            TotalsError::Minutes => "the minutes do not rise or leave their limits",
            TotalsError::Damaged => "a record has a wrong label or class",
        })
    }
}

impl std::error::Error for TotalsError {}

/// The totals of a row of records, by the fixed minutes.
pub fn of_records(records: &[Record]) -> Result<Totals, TotalsError> {
    by_minutes(records, Minutes::FIXED.values())
}

/// The totals of a row of records, by a district's minutes.
pub fn by_minutes(records: &[Record], minutes: &[u32]) -> Result<Totals, TotalsError> {
    if records.len() > MAX_RECORDS {
        return Err(TotalsError::Size);
    }
    let minutes = Minutes::of(minutes).ok_or(TotalsError::Minutes)?;
    let mut totals = Totals::default();
    for record in records {
        totals.count(*record, &minutes)?;
    }
    Ok(totals)
}

/// The totals of a row of records given as words, by the fixed minutes: label, class, label, class and so on.
pub fn of_words(words: &[u32]) -> Result<Totals, TotalsError> {
    let pairs = words.chunks_exact(2);
    if !pairs.remainder().is_empty() {
        return Err(TotalsError::Size);
    }
    let records: Vec<Record> = pairs.map(|pair| Record { label: pair[0], class: pair[1] }).collect();
    of_records(&records)
}

#[cfg(test)]
mod tests {
    use super::*;

    fn sum(jobs: u32, minutes: u32) -> Sum {
        Sum { jobs, minutes }
    }

    #[test]
    fn an_empty_row() {
        assert_eq!(of_records(&[]), Ok(Totals::default()));
        assert_eq!(of_words(&[]), Ok(Totals::default()));
    }

    #[test]
    fn sums_under_each_label() {
        let totals = of_words(&[0, 0, 2, 15, 1, 3, 2, 15, 0, 9]).unwrap();
        assert_eq!(totals.under(Label::Unexecuted), sum(2, 46));
        assert_eq!(totals.under(Label::Executing), sum(1, 5));
        assert_eq!(totals.under(Label::Finished), sum(2, 960));
    }

    #[test]
    fn a_wrong_label_or_class_anywhere() {
        assert_eq!(of_words(&[3, 0]), Err(TotalsError::Damaged));
        assert_eq!(of_words(&[0, 16]), Err(TotalsError::Damaged));
        assert_eq!(of_words(&[0, 0, 1, 1, 2, u32::MAX]), Err(TotalsError::Damaged));
        assert_eq!(TotalsError::Damaged.number(), 9);
    }

    #[test]
    fn a_districts_minutes() {
        let district: Vec<u32> = (1..=16).map(|value| 10 * value).collect();
        let records = [(0, 0), (2, 15), (1, 3), (2, 15)].map(|(label, class)| Record { label, class });
        let totals = by_minutes(&records, &district).unwrap();
        assert_eq!(totals.under(Label::Unexecuted), sum(1, 10));
        assert_eq!(totals.under(Label::Executing), sum(1, 40));
        assert_eq!(totals.under(Label::Finished), sum(2, 320));
        let wrong = [Record { label: 3, class: 0 }];
        assert_eq!(by_minutes(&wrong, &district), Err(TotalsError::Damaged));
        assert_eq!(by_minutes(&wrong, &district[1..]), Err(TotalsError::Minutes));
        assert_eq!(by_minutes(&[wrong[0]; 4_097], &district[1..]), Err(TotalsError::Size));
        assert_eq!(TotalsError::Minutes.number(), 17);
    }

    #[test]
    fn sizes_come_before_damage() {
        let longest = vec![Record { label: 2, class: 15 }; 4_096];
        assert_eq!(of_records(&longest).unwrap().under(Label::Finished), sum(4_096, 1_966_080));
        assert_eq!(of_records(&vec![Record { label: 9, class: 0 }; 4_097]), Err(TotalsError::Size));
        assert_eq!(of_words(&[9]), Err(TotalsError::Size));
        assert_eq!(TotalsError::Size.number(), 1);
    }
}
