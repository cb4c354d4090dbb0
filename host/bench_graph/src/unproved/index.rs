//! The queue and the index beside it. A read-only way through the index decides where the place that moves comes to
//! rest; only then are the places on its way shifted.

use compare_graph::layout::{job, JOBS_HEADER, JOB_WORDS, NONE, QUEUE_HEADER};

use super::{Graph, Outcome, DAMAGED, MAX_CLASS};

/// By this a class outweighs every place.
const MOST_JOBS: u32 = 4_096;

/// A place of the queue that is filled or emptied, and what moves in the index: the slot past the filled ones or the last
/// of them, and the slot where the place that moves comes to rest.
#[derive(Clone, Copy)]
pub struct Seat {
    place: u32,
    last: u32,
    slot: u32,
}

/// A place that a slot holds, the number of its job, and its rank.
#[derive(Clone, Copy)]
struct Waiting {
    place: u32,
    number: u32,
    rank: u32,
}

/// The order of hand-outs, as one number of a class and a place: the lower first.
fn rank(class: u32, place: u32) -> u32 {
    (MAX_CLASS - class) * MOST_JOBS + place
}

fn above(slot: u32) -> u32 {
    (slot - 1) / 2
}

impl<const INDEXED: bool> Graph<'_, INDEXED> {
    /// The words of a place: its cell, and with the index a slot and the place's position.
    pub const PLACE_WORDS: usize = if INDEXED { 3 } else { 1 };

    #[inline(always)]
    fn cell(place: u32) -> usize {
        QUEUE_HEADER + Self::PLACE_WORDS * place as usize
    }

    #[inline(always)]
    fn slot(slot: u32) -> usize {
        Self::cell(slot) + 1
    }

    #[inline(always)]
    fn position(place: u32) -> usize {
        Self::cell(place) + 2
    }

    /// The queue's counters, taken and put.
    #[inline(always)]
    pub fn queue_counters(&self) -> Outcome<(u32, u32)> {
        let (taken, put) = (self.queue[0], self.queue[1]);
        if taken <= put && put <= self.sizes.jobs {
            Ok((taken, put))
        } else {
            Err(DAMAGED)
        }
    }

    /// The place that a slot holds; damage where it is not that of a waiting job, or has another position.
    #[inline(always)]
    fn waiting(&self, slot: u32) -> Outcome<Waiting> {
        let place = self.queue[Self::slot(slot)];
        if place >= self.queue[1] || self.queue[Self::position(place)] != slot {
            return Err(DAMAGED);
        }
        let number = self.queue[Self::cell(place)];
        if number >= self.made() {
            return Err(DAMAGED);
        }
        let class = self.jobs[JOBS_HEADER + JOB_WORDS * number as usize + job::CLASS];
        if class > MAX_CLASS {
            return Err(DAMAGED);
        }
        Ok(Waiting { place, number, rank: rank(class, place) })
    }

    /// The seat of a job of this class that enters; damage where it cannot.
    #[inline(always)]
    pub fn seat_for(&self, class: u32) -> Outcome<Seat> {
        let (taken, put) = self.queue_counters()?;
        if put == self.sizes.jobs {
            return Err(DAMAGED);
        }
        if !INDEXED {
            return Ok(Seat { place: put, last: 0, slot: 0 });
        }
        if class > MAX_CLASS {
            return Err(DAMAGED);
        }
        let (rank, last) = (rank(class, put), put - taken);
        let mut slot = last;
        while slot > 0 && rank < self.waiting(above(slot))?.rank {
            slot = above(slot);
        }
        Ok(Seat { place: put, last, slot })
    }

    /// Puts a place in a slot, which is then its position.
    #[inline(always)]
    fn hold(&mut self, slot: u32, place: u32) {
        self.queue[Self::slot(slot)] = place;
        self.queue[Self::position(place)] = slot;
    }

    #[inline(always)]
    pub fn enqueue(&mut self, seat: Seat, number: u32) {
        self.queue[Self::cell(seat.place)] = number;
        if INDEXED {
            let mut slot = seat.last;
            while slot != seat.slot {
                self.hold(slot, self.queue[Self::slot(above(slot))]);
                slot = above(slot);
            }
            self.hold(slot, seat.place);
        }
        self.queue[1] = seat.place + 1;
    }

    /// The seat of the job that a get takes, and the job; some job waits.
    #[inline(always)]
    pub fn first_seat(&self, taken: u32, put: u32) -> Outcome<(Seat, u32)> {
        if INDEXED {
            return self.first_in_order(put - taken - 1);
        }
        let number = self.queue[Self::cell(taken)];
        if number < self.made() {
            Ok((Seat { place: taken, last: 0, slot: 0 }, number))
        } else {
            Err(DAMAGED)
        }
    }

    /// The seat of the place in slot 0, by the way down of that in the last slot, and its job. Where the two are one slot,
    /// it is judged as each.
    #[inline(always)]
    fn first_in_order(&self, last: u32) -> Outcome<(Seat, u32)> {
        let first = self.waiting(0)?;
        let moved = self.waiting(last)?;
        let mut slot = 0;
        while 2 * slot + 1 < last {
            let (lesser, below) = self.lesser(2 * slot + 1, last)?;
            if below.rank >= moved.rank {
                break;
            }
            slot = lesser;
        }
        Ok((Seat { place: first.place, last, slot }, first.number))
    }

    /// Of a slot and the one beside it, if that is filled, the one whose place has the lower rank, and that place.
    #[inline(always)]
    fn lesser(&self, left: u32, filled: u32) -> Outcome<(u32, Waiting)> {
        let on_left = self.waiting(left)?;
        if left + 1 >= filled {
            return Ok((left, on_left));
        }
        let on_right = self.waiting(left + 1)?;
        Ok(if on_right.rank < on_left.rank { (left + 1, on_right) } else { (left, on_left) })
    }

    #[inline(always)]
    pub fn dequeue(&mut self, seat: Seat, taken: u32) {
        if INDEXED {
            let mut moved = self.queue[Self::slot(seat.last)];
            let mut slot = seat.slot;
            while slot > 0 {
                let next = self.queue[Self::slot(slot)];
                self.hold(slot, moved);
                moved = next;
                slot = above(slot);
            }
            self.hold(0, moved);
            self.queue[Self::slot(seat.last)] = NONE;
            self.queue[Self::position(seat.place)] = NONE;
        }
        self.queue[Self::cell(seat.place)] = NONE;
        self.queue[0] = taken + 1;
    }
}
