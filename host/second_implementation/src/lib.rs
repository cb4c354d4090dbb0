//! A second implementation of the rules of docs/RULES.md, one module for each of its concerns.
//!
//! It is written from that document alone and shares no code with the proved library, so that a
//! mistake in one of the two shows as a difference between them. It proves nothing.

#![forbid(unsafe_code)]

pub mod book;
pub mod bucket;
pub mod day_list;
pub mod graph;
pub mod history;
pub mod minutes;
pub mod refusal;
pub mod room;
pub mod sheet;
pub mod totals;
