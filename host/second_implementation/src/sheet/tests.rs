//! docs/RULES.md's examples and the order of its refusals.

use super::*;

/// Jobs 1, 2, 3 and 4 needing 1 and 2 (docs/RULES.md, "The board and the day list").
const FOUR_JOBS: [u8; 29] = [
    1, 1, 0, 0, 0, //
    1, 2, 0, 0, 0, //
    1, 3, 0, 0, 0, //
    3, 4, 0, 0, 0, 2, 1, 0, 0, 0, 2, 0, 0, 0,
];

fn entry(name: u32, prerequisites: &[u32], class: u32, grower: u32) -> Entry {
    let mut names = [0; MAX_NAMES];
    names[..prerequisites.len()].copy_from_slice(prerequisites);
    Entry { name, prerequisites: Names { count: prerequisites.len(), names }, class, grower }
}

fn read(sheet: &[u8]) -> Result<Vec<Entry>, ReadError> {
    let before = entry(99, &[98], 1, 2);
    let mut entries = vec![before];
    let result = read_sheet(sheet, &mut entries);
    assert!(result.is_ok() || entries == [before], "a refused sheet hands out nothing");
    result.map(|()| entries.split_off(1))
}

fn write(entries: &[Entry]) -> Vec<u8> {
    let mut out = vec![0; 137 * entries.len()];
    let len = write_sheet(entries, &mut out).unwrap();
    out.truncate(len);
    out
}

#[test]
fn the_four_jobs() {
    let jobs = [entry(1, &[], 0, 0), entry(2, &[], 0, 0), entry(3, &[], 0, 0), entry(4, &[1, 2], 0, 0)];
    assert_eq!(read(&FOUR_JOBS), Ok(jobs.to_vec()));
    assert_eq!(write(&jobs), FOUR_JOBS);
}

#[test]
fn the_empty_sheet_has_no_jobs() {
    assert_eq!(read(&[]), Ok(vec![]));
    assert_eq!(write_sheet(&[], &mut []), Ok(0));
}

#[test]
fn case_8() {
    assert_eq!(read(&[0x02]), Err(ReadError::Map(0)));
    assert_eq!(read(&[0x05, 7, 0, 0, 0, 0]), Err(ReadError::Value(5)));
    assert_eq!(read(&[0x01]), Err(ReadError::Cut(1)));
    let numbers = [ReadError::Map(0), ReadError::Value(0), ReadError::Cut(0)].map(ReadError::number);
    assert_eq!(numbers, [13, 14, 12]);
}

#[test]
fn every_field_at_its_ends() {
    for full in [entry(0, &[0], 1, 1), entry(u32::MAX, &[u32::MAX; 32], 15, 65_535)] {
        let bytes = write(&[full]);
        assert_eq!(bytes[0], 0x0f);
        assert_eq!(read(&bytes), Ok(vec![full]));
    }
    assert_eq!(write(&[entry(u32::MAX, &[1; 32], 15, 65_535)]).len(), 137);
}

#[test]
fn bytes_in_order() {
    let bytes = write(&[entry(0x0403_0201, &[0x0807_0605], 9, 0x0b0a)]);
    assert_eq!(bytes, [0x0f, 1, 2, 3, 4, 1, 5, 6, 7, 8, 9, 0x0a, 0x0b]);
}

#[test]
fn wrong_map_bytes_come_first() {
    for map in (0..=255).filter(|map| map & 1 == 0 || map >> 4 != 0) {
        assert_eq!(read(&[map]), Err(ReadError::Map(0)));
    }
    let mut sheet = FOUR_JOBS.to_vec();
    sheet.push(0x10);
    assert_eq!(read(&sheet), Err(ReadError::Map(29)));
}

#[test]
fn a_cut_names_the_start_of_its_field() {
    let bytes = write(&[entry(1, &[2, 3], 4, 5)]);
    let fields = [1, 5, 14, 15];
    for len in 1..bytes.len() {
        let field = fields.iter().rev().find(|start| **start <= len).unwrap();
        assert_eq!(read(&bytes[..len]), Err(ReadError::Cut(*field)), "{len} bytes");
    }
}

#[test]
fn values_off_their_limits() {
    assert_eq!(read(&[0x03, 1, 0, 0, 0, 0]), Err(ReadError::Value(5)));
    assert_eq!(read(&[0x03, 1, 0, 0, 0, 33]), Err(ReadError::Value(5)), "before the names are looked for");
    assert_eq!(read(&[0x05, 1, 0, 0, 0, 16]), Err(ReadError::Value(5)));
    assert_eq!(read(&[0x0d, 1, 0, 0, 0, 0]), Err(ReadError::Value(5)), "before the grower is looked for");
    assert_eq!(read(&[0x09, 1, 0, 0, 0, 0, 0]), Err(ReadError::Value(5)));
    assert_eq!(read(&[0x09, 1, 0, 0, 0, 0]), Err(ReadError::Cut(5)), "a cut before a wrong value");
}

#[test]
fn the_end_of_the_sheet_and_beyond() {
    for at in [29, 30, usize::MAX] {
        assert_eq!(read_entry(&FOUR_JOBS, at), Ok(None));
    }
    assert_eq!(read_entry(&FOUR_JOBS, 10), Ok(Some((entry(3, &[], 0, 0), 15))));
}

#[test]
fn writing_refuses_the_first_bad_field() {
    let mut out = [7; 200];
    let mut refused = |bad: Entry| match write_entry(&bad, &mut out, 3) {
        Err(WriteError::Value { entry: 0, at }) => at,
        other => panic!("{other:?}"),
    };
    let long = Entry { prerequisites: Names { count: 33, names: [0; 32] }, ..entry(1, &[], 16, 65_536) };
    assert_eq!(refused(long), 5);
    assert_eq!(refused(entry(1, &[], 16, 65_536)), 5);
    assert_eq!(refused(entry(1, &[2, 3], 16, 65_536)), 14);
    assert_eq!(refused(entry(1, &[], 0, 65_536)), 5);
    assert_eq!(refused(entry(1, &[2, 3], 4, 65_536)), 15);
    assert_eq!(out, [7; 200]);
}

#[test]
fn writing_needs_room_and_touches_no_more() {
    let job = entry(1, &[2], 3, 4);
    for len in 0..15 {
        let mut out = vec![7; len];
        assert_eq!(write_entry(&job, &mut out, 2), Err(WriteError::NoRoom));
        assert_eq!(out, vec![7; len]);
    }
    let mut out = [7; 17];
    assert_eq!(write_entry(&job, &mut out, 2), Ok(15));
    assert_eq!(out, [7, 7, 0x0f, 1, 0, 0, 0, 1, 2, 0, 0, 0, 3, 4, 0, 7, 7]);
    assert_eq!(write_entry(&job, &mut out, usize::MAX), Err(WriteError::NoRoom));
    assert_eq!(write_entry(&entry(1, &[], 16, 0), &mut [], 9), Err(WriteError::Value { entry: 0, at: 5 }));
}

#[test]
fn a_whole_sheet_is_refused_whole() {
    let good = entry(1, &[], 0, 0);
    let mut out = [7; 14];
    let late = [good, good, entry(1, &[2], 16, 0)];
    assert_eq!(write_sheet(&late, &mut out), Err(WriteError::Value { entry: 2, at: 10 }));
    assert_eq!(write_sheet(&[good; 3], &mut out), Err(WriteError::NoRoom));
    assert_eq!(out, [7; 14]);
}

#[test]
fn names_past_the_count_are_not_written() {
    let mut job = entry(1, &[2, 3], 0, 0);
    job.prerequisites.count = 1;
    assert_eq!(read(&write(&[job])), Ok(vec![entry(1, &[2], 0, 0)]));
}
