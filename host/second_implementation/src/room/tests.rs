//! Sheets whose room was worked out by hand.

use super::*;
use crate::refusal::{ARGUMENTS, FULL, NAME_PRESENT, UNKNOWN_NAME};

/// Jobs 1, 2, 3 and 4 needing 1 and 2 (docs/RULES.md, "The board and the day list").
const FOUR_JOBS: [u8; 29] = [1, 1, 0, 0, 0, 1, 2, 0, 0, 0, 1, 3, 0, 0, 0, 3, 4, 0, 0, 0, 2, 1, 0, 0, 0, 2, 0, 0, 0];

/// The bytes of an entry without class and grower.
fn entry(name: u32, list: &[u32]) -> Vec<u8> {
    let mut bytes = vec![if list.is_empty() { 1 } else { 3 }];
    bytes.extend(name.to_le_bytes());
    if !list.is_empty() {
        bytes.push(list.len() as u8);
        list.iter().for_each(|name| bytes.extend(name.to_le_bytes()));
    }
    bytes
}

fn sheet(jobs: &[(u32, &[u32])]) -> Vec<u8> {
    jobs.iter().flat_map(|(name, list)| entry(*name, list)).collect()
}

fn turned_away(entry: usize, number: u32, place: usize) -> Result<Room, NoRoom> {
    Err(NoRoom::TurnedAway { entry, refusal: Refusal { number, place } })
}

#[test]
fn the_four_jobs() {
    // Adds of 2, 2, 2 and 6 steps; 4 gets; finishes of 2, 2, 1 and 1.
    assert_eq!(room(&FOUR_JOBS), Ok(Room { jobs: 4, arcs: 2, steps: 22 }));
}

#[test]
fn the_empty_sheet() {
    assert_eq!(room(&[]), Ok(Room { jobs: 0, arcs: 0, steps: 0 }));
}

#[test]
fn a_chain() {
    let chain = sheet(&[(7, &[]), (8, &[7]), (9, &[8])]);
    // Adds of 2, 4 and 4 steps; 3 gets; finishes of 2, 2 and 1.
    assert_eq!(room(&chain), Ok(Room { jobs: 3, arcs: 2, steps: 18 }));
}

#[test]
fn entries_that_are_turned_away() {
    assert_eq!(room(&sheet(&[(1, &[1])])), turned_away(0, ARGUMENTS, 0));
    assert_eq!(room(&sheet(&[(1, &[]), (2, &[1, 1])])), turned_away(1, ARGUMENTS, 0));
    assert_eq!(room(&sheet(&[(1, &[]), (2, &[1, 9])])), turned_away(1, UNKNOWN_NAME, 1));
    assert_eq!(room(&sheet(&[(1, &[2]), (2, &[])])), turned_away(0, UNKNOWN_NAME, 0));
    assert_eq!(room(&sheet(&[(1, &[]), (2, &[]), (1, &[2])])), turned_away(2, NAME_PRESENT, 0));
}

#[test]
fn the_first_is_told() {
    assert_eq!(room(&sheet(&[(1, &[]), (1, &[]), (2, &[9])])), turned_away(1, NAME_PRESENT, 0));
    // 5 before 6 before 7, in one entry.
    assert_eq!(room(&sheet(&[(1, &[]), (1, &[9, 9])])), turned_away(1, ARGUMENTS, 0));
    assert_eq!(room(&sheet(&[(1, &[]), (1, &[9])])), turned_away(1, UNKNOWN_NAME, 0));
}

#[test]
fn no_room_for_a_job() {
    let most: Vec<u8> = (0..4_096).flat_map(|name| entry(name, &[])).collect();
    assert_eq!(room(&most), Ok(Room { jobs: 4_096, arcs: 0, steps: 16_384 }));
    assert_eq!(room(&[&most[..], &entry(4_096, &[])].concat()), turned_away(4_096, FULL, 0));
    // 5, 6 and 7 come before 8.
    assert_eq!(room(&[&most[..], &entry(4_096, &[4_096])].concat()), turned_away(4_096, ARGUMENTS, 0));
    assert_eq!(room(&[&most[..], &entry(4_096, &[0, 4_097])].concat()), turned_away(4_096, UNKNOWN_NAME, 1));
    assert_eq!(room(&[&most[..], &entry(9, &[])].concat()), turned_away(4_096, NAME_PRESENT, 0));
}

#[test]
fn no_room_for_arcs() {
    let list: Vec<u32> = (0..32).collect();
    let mut sheet: Vec<u8> = (0..32).flat_map(|name| entry(name, &[])).collect();
    sheet.extend((32..1_056).flat_map(|name| entry(name, &list)));
    // 32 jobs without a list, and 1,024 with 32 names each: 4 times 1,056 and 3 times 32,768 steps.
    assert_eq!(room(&sheet), Ok(Room { jobs: 1_056, arcs: 32_768, steps: 102_528 }));
    assert_eq!(room(&[&sheet[..], &entry(1_056, &[0])].concat()), turned_away(1_056, FULL, 0));
    let more = [&sheet[..], &entry(1_056, &[])].concat();
    assert_eq!(room(&more), Ok(Room { jobs: 1_057, arcs: 32_768, steps: 102_532 }));
}

#[test]
fn an_unreadable_byte_comes_first() {
    let refused = sheet(&[(1, &[1]), (2, &[])]);
    let unreadable = |bytes: &[u8]| room(&[&refused[..], bytes].concat());
    assert_eq!(unreadable(&[1]), Err(NoRoom::Unreadable(ReadError::Cut(16))));
    assert_eq!(unreadable(&[2]), Err(NoRoom::Unreadable(ReadError::Map(15))));
    assert_eq!(unreadable(&[5, 3, 0, 0, 0, 0]), Err(NoRoom::Unreadable(ReadError::Value(20))));
}
