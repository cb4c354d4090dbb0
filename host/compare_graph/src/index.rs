//! The index beside the queue (docs/RULES.md, "The index"; docs/TABLES.md, "What each step reads and writes"): which places come to which slots
//! as a job enters the queue and as the first is taken, whatever the slots hold; and the slots of a graph without
//! damage.

use second_implementation::{
    graph::{Graph, MAX_JOBS},
    sheet::MAX_CLASS,
};

use crate::layout::NONE;

/// A place of the queue and its rank: of two places the one of the lower rank is handed out first.
#[derive(Clone, Copy, Debug)]
pub struct Ranked {
    place: u32,
    rank: u32,
}

impl Ranked {
    /// A place, and the class of the job in its cell.
    pub fn new(place: u32, class: u32) -> Ranked {
        Ranked { place, rank: (MAX_CLASS - class) * MAX_JOBS + place }
    }
}

/// Why a slot that is read does not wait.
#[derive(Clone, Copy, Debug, PartialEq, Eq, PartialOrd, Ord)]
pub enum WrongSlot {
    NotPut,
    /// The position of its place is not the slot.
    Elsewhere,
    NoJobMade,
    NoClass,
}

impl WrongSlot {
    pub const ALL: [WrongSlot; 4] = [WrongSlot::NotPut, WrongSlot::Elsewhere, WrongSlot::NoJobMade, WrongSlot::NoClass];
}

/// Slots, and the places that come to them, each of which takes the slot as its position.
pub type Moves = Vec<(usize, u32)>;

/// A place enters: it starts in the slot past the filled ones and goes up.
pub fn enter(
    filled: usize,
    new: Ranked,
    read: impl Fn(usize) -> Result<Ranked, WrongSlot>,
) -> Result<Moves, WrongSlot> {
    let mut moves = Vec::new();
    let mut slot = filled;
    while slot > 0 {
        let above = (slot - 1) / 2;
        let there = read(above)?;
        if new.rank >= there.rank {
            break;
        }
        moves.push((slot, there.place));
        slot = above;
    }
    moves.push((slot, new.place));
    Ok(moves)
}

/// The first is taken: the place in the last filled slot moves to slot 0 and goes down. Afterwards the last slot
/// becomes none, also where it is slot 0, and so do the cell and the position of the place that was taken.
pub fn take(filled: usize, read: impl Fn(usize) -> Result<Ranked, WrongSlot>) -> Result<Moves, WrongSlot> {
    let last = filled - 1;
    read(0)?;
    let moving = read(last)?;
    let mut moves = Vec::new();
    let mut slot = 0;
    while 2 * slot + 1 < last {
        let left = 2 * slot + 1;
        let mut lower = (left, read(left)?);
        if left + 1 < last {
            let right = read(left + 1)?;
            if right.rank < lower.1.rank {
                lower = (left + 1, right);
            }
        }
        if lower.1.rank >= moving.rank {
            break;
        }
        moves.push((slot, lower.1.place));
        slot = lower.0;
    }
    moves.push((slot, moving.place));
    Ok(moves)
}

/// The filled slots beside the queue of a graph.
#[derive(Clone, Debug, Default)]
pub struct Index {
    slots: Vec<u32>,
    /// The jobs that were put in the queue so far.
    put: usize,
}

impl Index {
    /// The places in the filled slots.
    pub fn slots(&self) -> &[u32] {
        &self.slots
    }

    /// How many jobs were taken from the queue, and how many put in it.
    pub fn counters(&self) -> (usize, usize) {
        (self.put - self.slots.len(), self.put)
    }

    /// Brings the slots from where the graph was before an event to where it is after it.
    ///
    /// # Panics
    /// Where the index's first is not the job that the graph has handed out.
    pub fn follow(&mut self, graph: &Graph) {
        let queue = graph.queue();
        if queue.is_empty() {
            // It may have been laid out anew.
            *self = Index::default();
        }
        let ranked = |place: u32| Ranked::new(place, graph.jobs()[queue[place as usize]].class);
        if matches!(self.slots.first(), Some(first) if !graph.waits(queue[*first as usize])) {
            let moves = take(self.slots.len(), |slot| Ok(ranked(self.slots[slot])));
            self.apply(moves);
            self.slots.pop();
        }
        for place in self.put..queue.len() {
            let moves = enter(self.slots.len(), ranked(place as u32), |slot| Ok(ranked(self.slots[slot])));
            self.slots.push(NONE);
            self.apply(moves);
        }
        self.put = queue.len();
        let waiting = queue.iter().filter(|job| graph.waits(**job)).count();
        assert_eq!(self.slots.len(), waiting, "the index's first is the heaviest of those that wait");
    }

    fn apply(&mut self, moves: Result<Moves, WrongSlot>) {
        let moves = moves.expect("a graph without damage has no wrong slot");
        moves.into_iter().for_each(|(slot, place)| self.slots[slot] = place);
    }
}

#[cfg(test)]
mod tests {
    use super::*;
    use compare_sheets::random::Random;
    use second_implementation::minutes::minutes;
    use std::{cell::Cell, cmp::Reverse};

    /// With all places of the largest queue filled, they are taken by minutes and entry, and no entry or get looks at
    /// more slots than docs/RULES.md allows it pairs.
    #[test]
    fn the_largest_queue_is_taken_in_order() {
        let mut random = Random::new(1993, "the largest queue");
        let classes: Vec<u32> = (0..MAX_JOBS).map(|_| random.below(16) as u32).collect();
        let mut expected: Vec<u32> = (0..MAX_JOBS).collect();
        expected.sort_by_key(|place| (Reverse(minutes(classes[*place as usize])), *place));
        let ranked = |place: u32| Ranked::new(place, classes[place as usize]);
        let mut index = Index::default();
        let looked = Cell::new(0);
        let reading = |index: &Index, slot: usize| {
            looked.set(looked.get() + 1);
            Ok(ranked(index.slots[slot]))
        };
        for place in 0..MAX_JOBS {
            looked.set(0);
            let moves = enter(index.slots.len(), ranked(place), |slot| reading(&index, slot));
            index.slots.push(NONE);
            index.apply(moves);
            assert!(looked.get() <= 12);
        }
        for place in expected {
            assert_eq!(index.slots[0], place);
            looked.set(0);
            let moves = take(index.slots.len(), |slot| reading(&index, slot));
            index.apply(moves);
            index.slots.pop();
            assert!(looked.get() <= 2 + 24, "the first, the last, and two for each level");
        }
    }
}
