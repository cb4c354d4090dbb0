//! Why a call is turned away (`docs/RULES.md`, "Turned-away calls").

use std::{error::Error, fmt};

use crate::raw;

/// A number of the list of turned-away calls, with the place or offset where the list has one.
///
/// A refused call changes nothing, save that after 6, 7 and 8 the worker is idle again. [`Refusal::Stopped`] alone, which
/// only damaged words give, leaves the tables changed and the worker's call half done.
#[derive(Clone, Copy, Debug, PartialEq, Eq, Hash)]
#[non_exhaustive]
pub enum Refusal {
    /// 1: a size out of range or not the one laid out, a table too short, or too many records.
    Size,
    /// 2: no such worker.
    Worker,
    /// 3: a post or a get while the worker's call is half done.
    HalfDone,
    /// 4: a step while the worker is idle.
    Idle,
    /// 5: an add with a class, a grower or a list that is wrong.
    Arguments,
    /// 6: no job has a listed name.
    UnknownName {
        /// The name's place in the list, from 0.
        place: usize,
    },
    /// 7: there is a job of that name already.
    NamePresent,
    /// 8: no room for the job or for its arcs.
    Full,
    /// 9: damaged words; nothing changed.
    Damaged,
    /// 9 in the middle of a call run whole: damaged words stopped it half done. The tables have changed.
    Stopped,
    /// 10: a get while the worker holds a job.
    Holding,
    /// 11: a finish of a name that the worker does not hold.
    NotHeld,
    /// 12: the sheet ends inside an entry.
    Cut {
        /// The offset of the field, in bytes from the sheet's start.
        at: usize,
    },
    /// 13: a wrong map byte.
    Map {
        /// Its offset, in bytes from the sheet's start.
        at: usize,
    },
    /// 14: a field's value out of range.
    Value {
        /// The offset of the field in bytes: on reading from the sheet's start, on writing from the entry's.
        at: usize,
    },
    /// 15: the output lacks room.
    NoRoom,
    /// 16: more entries than one call takes.
    Entries,
    /// 17: minute values that do not rise strictly from class to class, or leave 1 to 1,440.
    Minutes,
    /// 18: a load after a job has entered.
    Entered,
    /// 19: a finish as good of a spoiled job.
    GoodForSpoiled,
}

impl Refusal {
    /// The refusal of a number that the library answered, and of what came with it.
    ///
    /// # Panics
    /// Where the number is not on the list; the library is proved to answer no such number.
    pub(crate) fn of(number: u32, at: usize) -> Refusal {
        match number {
            1 => Refusal::Size,
            2 => Refusal::Worker,
            3 => Refusal::HalfDone,
            4 => Refusal::Idle,
            5 => Refusal::Arguments,
            6 => Refusal::UnknownName { place: at },
            7 => Refusal::NamePresent,
            8 => Refusal::Full,
            9 => Refusal::Damaged,
            10 => Refusal::Holding,
            11 => Refusal::NotHeld,
            12 => Refusal::Cut { at },
            13 => Refusal::Map { at },
            14 => Refusal::Value { at },
            15 => Refusal::NoRoom,
            16 => Refusal::Entries,
            17 => Refusal::Minutes,
            18 => Refusal::Entered,
            19 => Refusal::GoodForSpoiled,
            _ => panic!("the library answered {number}, which is no number of the list"),
        }
    }

    /// Nothing for 0, else the refusal.
    pub(crate) fn unless_accepted(number: u32, at: usize) -> Result<(), Refusal> {
        match number {
            0 => Ok(()),
            _ => Err(Refusal::of(number, at)),
        }
    }

    /// The number in the list.
    pub fn number(self) -> u32 {
        match self {
            Refusal::Size => 1,
            Refusal::Worker => 2,
            Refusal::HalfDone => 3,
            Refusal::Idle => 4,
            Refusal::Arguments => 5,
            Refusal::UnknownName { .. } => 6,
            Refusal::NamePresent => 7,
            Refusal::Full => 8,
            Refusal::Damaged | Refusal::Stopped => 9,
            Refusal::Holding => 10,
            Refusal::NotHeld => 11,
            Refusal::Cut { .. } => 12,
            Refusal::Map { .. } => 13,
            Refusal::Value { .. } => 14,
            Refusal::NoRoom => 15,
            Refusal::Entries => 16,
            Refusal::Minutes => 17,
            Refusal::Entered => 18,
            Refusal::GoodForSpoiled => 19,
        }
    }
}

impl fmt::Display for Refusal {
    fn fmt(&self, f: &mut fmt::Formatter<'_>) -> fmt::Result {
        f.write_str(raw::message(self.number()))?;
        match self {
            Refusal::UnknownName { place } => write!(f, " (place {place} of the list)"),
            Refusal::Stopped => f.write_str(" (the call is half done)"),
            Refusal::Cut { at } | Refusal::Map { at } | Refusal::Value { at } => write!(f, " (byte {at})"),
            _ => Ok(()),
        }
    }
}

impl Error for Refusal {}

#[cfg(test)]
mod tests {
    use super::*;

    #[test]
    fn numbers_go_there_and_back() {
        for number in 1..=19 {
            assert_eq!(Refusal::of(number, 7).number(), number);
        }
        assert_eq!(Refusal::unless_accepted(0, 7), Ok(()));
        assert_eq!(Refusal::unless_accepted(13, 7), Err(Refusal::Map { at: 7 }));
        assert_eq!(Refusal::Stopped.number(), 9);
    }

    #[test]
    fn texts_are_the_librarys_with_places() {
        assert_eq!(Refusal::of(2, 0).to_string(), "no such worker");
        assert_eq!(Refusal::of(6, 3).to_string(), "a listed name has no job (place 3 of the list)");
        assert_eq!(Refusal::Stopped.to_string(), "damaged words (the call is half done)");
        assert_eq!(Refusal::of(12, 20).to_string(), "the sheet ends inside an entry (byte 20)");
        assert_eq!(Refusal::of(17, 0).to_string(), "minutes that do not rise or are out of range");
        assert_eq!(Refusal::of(18, 0).to_string(), "a job has entered");
        assert_eq!(Refusal::of(19, 0).to_string(), "a job that rests on a failed one cannot end as good");
    }
}
