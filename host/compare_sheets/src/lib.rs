//! What the comparisons share: cases on which the proved library and the second implementation must agree,
//! seeded random inputs for them, and the search for the shortest input on which they differ.

#![forbid(unsafe_code)]

pub mod accepted;
pub mod case;
pub mod guarded;
pub mod inputs;
pub mod measures;
pub mod minute_values;
pub mod random;
pub mod reading;
pub mod room;
pub mod round_trip;
pub mod shrink;
pub mod totals;
pub mod writing;
