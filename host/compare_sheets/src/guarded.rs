//! Memory lent to the library: outputs between guards, and sheets whose end is a trap.

use std::fmt::Debug;

use crate::case::differ;

/// Elements on each side of an output: more than a whole entry has bytes or words.
const GUARD: usize = 160;

/// An output with guards before and after it, all filled with a pattern.
#[derive(Clone)]
pub struct Output<T> {
    all: Vec<T>,
}

/// What stood in an output's place before: a value for each place.
pub trait Pattern: Copy + PartialEq + Debug {
    fn at(place: usize) -> Self;
}

impl Pattern for u8 {
    fn at(place: usize) -> u8 {
        (place * 7 + 0x5a) as u8
    }
}

impl Pattern for u32 {
    fn at(place: usize) -> u32 {
        (place as u32).wrapping_mul(0x0101_0107).wrapping_add(0x5a5a_5a5a)
    }
}

impl<T: Pattern> Output<T> {
    pub fn new(len: usize) -> Output<T> {
        Output { all: (0..len + 2 * GUARD).map(T::at).collect() }
    }

    /// The output itself, to be lent.
    pub fn lent(&mut self) -> &mut [T] {
        let end = self.all.len() - GUARD;
        &mut self.all[GUARD..end]
    }

    /// The first place, guards included, that the library left with other contents than expected. A place before
    /// the output is below 0.
    pub fn difference(what: &str, library: &Output<T>, expected: &Output<T>) -> Option<String> {
        let place = library.all.iter().zip(&expected.all).position(|(one, other)| one != other)?;
        let what = format!("{what}, what stands at place {} afterwards", place as isize - GUARD as isize);
        differ(&what, library.all[place], expected.all[place])
    }
}

/// A sheet with bytes behind its end that would make any field whole and valid, so that a reader that
/// strays past the end finds no cut.
pub struct Sheet {
    all: Vec<u8>,
    len: usize,
}

impl Sheet {
    pub fn new(bytes: &[u8]) -> Sheet {
        let mut all = Vec::with_capacity(bytes.len() + GUARD);
        all.extend_from_slice(bytes);
        all.resize(bytes.len() + GUARD, 1);
        Sheet { all, len: bytes.len() }
    }

    pub fn bytes(&self) -> &[u8] {
        &self.all[..self.len]
    }
}
