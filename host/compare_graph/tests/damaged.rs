//! Damaged tables: every call is served or turned away by a number of the list, and nothing else happens.

use std::collections::BTreeSet;

use compare_graph::{
    damaged::{self, By, Damaged, Flag, Meeting, Met, Use, Way},
    event::{Event, History},
    histories,
    index::WrongSlot,
    tables::Tables,
    watchdog::Watchdog,
    whole::{self, HALF_LEFT, STOPPED},
    world::{call_library, to_library},
};
use compare_sheets::{case::Comparison, random::seed};
use taskgraph::raw;

#[test]
fn damaged_tables() {
    let test = "graph, damaged tables";
    let (mut comparison, _) = Comparison::new(test);
    let watchdog = Watchdog::new(test, seed());
    let met = Met::default();
    for number in 0..histories(20_000) {
        watchdog.begin(number);
        comparison.check(Damaged(damaged::numbered(seed(), number), &met));
    }
    print!("\n{met}");
    comparison.finish();
}

/// What the comparison must meet of the index: each wrong slot, of gets and of entries, and an index that is wrong or
/// no heap where no word that is read shows it.
#[test]
fn the_index_meets_damage() {
    let refused = WrongSlot::ALL.map(Way::Refused).into_iter();
    let ways: Vec<Way> = refused.chain([Way::OverWrong, Way::OverDisorder, Way::OverRight]).collect();
    let mut due: Vec<(Use, Way)> =
        [Use::Get, Use::Entry].into_iter().flat_map(|used| ways.iter().map(move |way| (used, *way))).collect();
    let (mut number, met) = (0, Met::default());
    while !due.is_empty() && number < 4_000 {
        assert_eq!(damaged::first_fault(&damaged::numbered(1993, number), &met), None, "in history {number}");
        due.retain(|way| !met.has(way));
        number += 1;
    }
    assert!(due.is_empty(), "never met in {number} histories: {due:?}");
    println!("\nall ways of the index met in {number} damaged histories");
}

/// What the comparison must meet of the board: served and refused by 1; by 9 for wrong minutes, and for other words where
/// the minutes are right.
#[test]
fn the_board_meets_damage() {
    let mut due = vec![(0, 0), (1, 1), (9, 9), (9, 0)];
    let (mut number, met) = (0, Met::default());
    while !due.is_empty() && number < 4_000 {
        assert_eq!(damaged::first_fault(&damaged::numbered(1993, number), &met), None, "in history {number}");
        due.retain(|board| !met.has_board(board));
        number += 1;
    }
    assert!(due.is_empty(), "never met in {number} histories: {due:?}");
    println!("\nall answers of boards and minutes met in {number} damaged histories");
}

/// What the comparison must meet of outcomes, marks and notes: each that is not 0 or 1, by each call that reads it; good
/// for a spoiled job; spoiled jobs handed out, and jobs that are spoiled.
#[test]
fn outcomes_marks_and_notes_meet_damage() {
    let notes = [By::PostAdd, By::PostFinish, By::Step, By::Get].map(|by| (by, Meeting::Wrong(Flag::Note)));
    let mut due = vec![
        (By::Get, Meeting::Wrong(Flag::Mark)),
        (By::PostFinish, Meeting::Wrong(Flag::Mark)),
        (By::Step, Meeting::Wrong(Flag::Outcome)),
        (By::PostFinish, Meeting::GoodForSpoiled),
        (By::Get, Meeting::HandedOut),
        (By::Step, Meeting::Spoils),
    ];
    due.extend(notes);
    let (mut number, met) = (0, Met::default());
    while !due.is_empty() && number < 4_000 {
        assert_eq!(damaged::first_fault(&damaged::numbered(1993, number), &met), None, "in history {number}");
        due.retain(|meeting| !met.has_meeting(meeting));
        number += 1;
    }
    assert!(due.is_empty(), "never met in {number} histories: {due:?}");
    println!("\nall that is to be met of outcomes, marks and notes met in {number} damaged histories");
}

/// How the library answers the whole calls and the loads of a history.
fn ways_of(history: History) -> BTreeSet<(&'static str, u32)> {
    let mut met = BTreeSet::new();
    let (mut tables, mut sizes) = (Tables::new(&history.setup), history.setup.sizes);
    raw::lay_out(to_library(sizes), &mut tables.lent(None));
    for event in history.events {
        match event {
            Event::Set { table, place, value } => tables.set(table, place, value),
            Event::LayOut(anew) => {
                let answer = raw::lay_out(to_library(anew), &mut tables.lent(None));
                sizes = if answer.number == 0 { anew } else { sizes };
            }
            Event::Call(call) => {
                let told = call_library(call.sizes.unwrap_or(sizes), &mut tables.lent(call.short), &call.item);
                met.extend(whole::ways(&call.item, &told));
            }
        }
    }
    met
}

/// What the comparison must meet of whole calls: damage before and in the middle of each, where it is told as stopped;
/// entries after such a middle, which get 3, and a finish that uses up its steps; and loads answered by each of their
/// numbers.
#[test]
fn whole_calls_meet_damage() {
    let mut due =
        BTreeSet::from([("add", 9), ("finish", 9), ("finish", HALF_LEFT), ("sheet", 9), ("entry", 9), ("entry", 3)]);
    due.extend(["add", "finish", "entry"].map(|what| (what, STOPPED)));
    due.insert(("finish", 19));
    due.extend([0, 1, 17, 9, 18].map(|number| ("load", number)));
    let mut number = 0;
    while !due.is_empty() && number < 4_000 {
        let met = ways_of(damaged::numbered(1993, number));
        due.retain(|way| !met.contains(way));
        number += 1;
    }
    assert!(due.is_empty(), "never met in {number} histories: {due:?}");
    println!("\nall ways of whole calls met in {number} damaged histories");
}
