//! The program `jobsheet`: job sheets as text and tables, checked, drawn and tried.
//!
//! A sheet is read by [`read`] from bytes, text or CSV, and [`judge`]d by adding its jobs to a fresh graph of the
//! proved library. The library alone decides what is accepted; what stands here finds the words for its answers
//! (`docs/SHEETS.md`, "As text", "As a table" and "The program jobsheet").

#![warn(missing_docs)]

pub mod arguments;
pub mod bytes;
pub mod commands;
pub mod csv;
pub mod day;
mod draft;
pub mod fault;
pub mod form;
pub mod help;
pub mod input;
pub mod json;
pub mod judge;
pub mod number;
pub mod output;
pub mod picture;
mod remedies;
pub mod sheet;
pub mod streams;
pub mod summary;
pub mod terminal;
pub mod text;
mod words;

pub use form::{read, Form};
pub use judge::{judge, Judged};
pub use sheet::{Entry, Sheet};
