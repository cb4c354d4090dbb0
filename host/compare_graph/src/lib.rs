//! What the tests of the task graph share: histories of calls in a text format, the tables that are lent,
//! the library beside the second implementation over a history, and the search for the shortest that differs.

#![forbid(unsafe_code)]

pub mod damaged;
pub mod day;
pub mod event;
mod expected_words;
pub mod generate;
mod hand_outs;
pub mod index;
pub mod layout;
pub mod random_history;
pub mod sizes;
pub mod small_worlds;
pub mod tables;
mod text;
mod view;
pub mod watchdog;
pub mod whole;
pub mod world;

use std::env;

/// The environment variable that sets how many random histories a test takes.
pub const HISTORIES_VARIABLE: &str = "CONFORMANCE_HISTORIES";

/// How many histories a test takes.
pub fn histories(default: u64) -> u64 {
    match env::var(HISTORIES_VARIABLE) {
        Ok(text) => text.parse().unwrap_or_else(|_| panic!("{HISTORIES_VARIABLE} is not a number: {text}")),
        Err(_) => default,
    }
}
