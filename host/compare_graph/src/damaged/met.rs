//! What the calls over damaged tables meet of the index beside the queue, and of outcomes, marks and notes; and how whole
//! calls were answered 9.

use std::{cell::RefCell, cmp::Reverse, collections::BTreeMap, fmt};

use second_implementation::{history::Item, refusal, sheet::MAX_CLASS};
use taskgraph::raw::{GraphMinutes, Totals};

use super::answer::{Expected, Flag};
use crate::{
    index::WrongSlot,
    layout::{self, cell_at, job, job_at, position_at, slot_at, JOB_WORDS, NONE},
    tables::{Tables, JOBS, QUEUE},
    whole,
    world::LibraryTold,
};

/// What uses the index.
#[derive(Clone, Copy, Debug, PartialEq, Eq, PartialOrd, Ord)]
pub enum Use {
    Get,
    /// A step that puts a job in the queue.
    Entry,
}

/// What becomes of a call that uses the index.
#[derive(Clone, Copy, Debug, PartialEq, Eq, PartialOrd, Ord)]
pub enum Way {
    /// Number 9 for a slot that is read.
    Refused(WrongSlot),
    /// Served, though the index does not hold exactly the places of the waiting jobs.
    OverWrong,
    /// Served, though the index, which holds exactly these, is no heap.
    OverDisorder,
    OverRight,
}

/// What a single call meets of outcomes, marks and notes.
#[derive(Clone, Copy, Debug, PartialEq, Eq, PartialOrd, Ord)]
pub enum Meeting {
    /// Number 9 for a word that is not 0 or 1.
    Wrong(Flag),
    /// Number 19.
    GoodForSpoiled,
    /// A spoiled job is handed out.
    HandedOut,
    /// A job is marked spoiled.
    Spoils,
}

/// The calls that meet them.
#[derive(Clone, Copy, Debug, PartialEq, Eq, PartialOrd, Ord)]
pub enum By {
    PostAdd,
    PostFinish,
    Step,
    Get,
}

/// How many calls met each way, how many boards and minutes of graphs were answered by each number, how many calls met
/// what of outcomes, marks and notes, and how many whole calls and entries of sheets were refused by 9 or stopped by it.
#[derive(Debug, Default)]
pub struct Met(
    RefCell<BTreeMap<(Use, Way), u64>>,
    RefCell<BTreeMap<Board, u64>>,
    RefCell<BTreeMap<(By, Meeting), u64>>,
    RefCell<BTreeMap<(&'static str, bool), u64>>,
);

/// The numbers of the board over a graph and of its minutes.
pub type Board = (u32, u32);

impl Met {
    /// Notes what a call over these tables meets, by what is expected of it.
    pub(super) fn note(&self, tables: &Tables, is_get: bool, expected: &Expected) {
        let way = match expected.wrong_slot {
            Some(wrong) => Way::Refused(wrong),
            None if expected.writes.iter().all(|(table, ..)| *table != QUEUE) => return,
            None => over(tables),
        };
        let key = (if is_get { Use::Get } else { Use::Entry }, way);
        *self.0.borrow_mut().entry(key).or_insert(0) += 1;
    }

    /// Notes what a board and the minutes of a graph answer.
    pub(super) fn note_board(&self, totals: &Totals, minutes: &GraphMinutes) {
        *self.1.borrow_mut().entry((totals.number, minutes.number)).or_insert(0) += 1;
    }

    pub fn has_board(&self, board: &Board) -> bool {
        self.1.borrow().contains_key(board)
    }

    pub fn has(&self, way: &(Use, Way)) -> bool {
        self.0.borrow().contains_key(way)
    }

    /// Notes what an item that is a single call meets of outcomes, marks and notes, by what is expected of it.
    pub(super) fn note_flags(&self, item: &Item, expected: &Expected) {
        let by = match item {
            Item::PostAdd { .. } => By::PostAdd,
            Item::PostFinish { .. } => By::PostFinish,
            Item::Step { .. } => By::Step,
            Item::Get { .. } => By::Get,
            _ => return,
        };
        let is_mark = |place: usize| place >= job_at(0) && (place - job_at(0)) % JOB_WORDS == job::MARK;
        let meeting = match expected.wrong_flag {
            Some(wrong) => Meeting::Wrong(wrong),
            None if expected.answer.number == refusal::GOOD_FOR_SPOILED => Meeting::GoodForSpoiled,
            None if expected.answer.spoiled == 1 => Meeting::HandedOut,
            None if expected
                .writes
                .iter()
                .any(|(table, place, word)| *table == JOBS && is_mark(*place) && *word == 1) =>
            {
                Meeting::Spoils
            }
            None => return,
        };
        *self.2.borrow_mut().entry((by, meeting)).or_insert(0) += 1;
    }

    /// Notes a whole call, or the entries of a sheet, that met 9: whether it was stopped half done.
    pub(super) fn note_whole(&self, item: &Item, told: &LibraryTold) {
        for (what, number) in whole::ways(item, told) {
            if number == refusal::DAMAGED || number == whole::STOPPED {
                *self.3.borrow_mut().entry((what, number == whole::STOPPED)).or_insert(0) += 1;
            }
        }
    }

    pub fn has_meeting(&self, meeting: &(By, Meeting)) -> bool {
        self.2.borrow().contains_key(meeting)
    }
}

impl fmt::Display for Met {
    fn fmt(&self, f: &mut fmt::Formatter<'_>) -> fmt::Result {
        let met = self.0.borrow();
        for (used, name) in [(Use::Get, "gets"), (Use::Entry, "entries")] {
            let count = |way| met.get(&(used, way)).copied().unwrap_or(0);
            let refused: Vec<(WrongSlot, u64)> = WrongSlot::ALL.map(|wrong| (wrong, count(Way::Refused(wrong)))).into();
            let all: u64 = refused.iter().map(|(_, count)| count).sum();
            writeln!(
                f,
                "{name}: {all} got 9 from the index, {refused:?}; {} were served over one that does not hold exactly the \
                 waiting jobs, {} over one that is no heap, {} over a right one",
                count(Way::OverWrong),
                count(Way::OverDisorder),
                count(Way::OverRight),
            )?;
        }
        writeln!(f, "boards of graphs, by their number and that of the minutes: {:?}", self.1.borrow())?;
        writeln!(f, "what single calls met of outcomes, marks and notes: {:?}", self.2.borrow())?;
        writeln!(f, "whole calls and entries that met 9, and whether it stopped them half done: {:?}", self.3.borrow())
    }
}

/// What the index of a call that is served is like.
fn over(tables: &Tables) -> Way {
    let queue = tables.words(QUEUE);
    let (taken, put) = (queue[layout::TAKEN] as usize, queue[layout::PUT] as usize);
    let slots: Vec<u32> = (0..put - taken).map(|slot| queue[slot_at(slot)]).collect();
    let waiting = (0..put as u32).filter(|place| queue[cell_at(*place as usize)] != NONE);
    let mut places = slots.clone();
    places.sort_unstable();
    let held = |(slot, place): (usize, &u32)| queue[position_at(*place as usize)] == slot as u32;
    if !waiting.eq(places) || !slots.iter().enumerate().all(held) {
        return Way::OverWrong;
    }
    // A class that is off its range is after all others.
    let class = |place: u32| tables.words(JOBS).get(job_at(queue[cell_at(place as usize)] as usize) + job::CLASS);
    let key = |slot: usize| (Reverse(class(slots[slot]).filter(|class| **class <= MAX_CLASS)), slots[slot]);
    if (1..slots.len()).all(|slot| key((slot - 1) / 2) < key(slot)) {
        Way::OverRight
    } else {
        Way::OverDisorder
    }
}
