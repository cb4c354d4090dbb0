//! Graphs to build and drain, and the two implementations of the tables that do it.

pub mod calls;
pub mod shapes;
pub mod unproved;
