//! Job sheets and the day list through the safe interface.

use taskgraph::{
    bucket, day_list, minutes, read_sheet, room_of_sheet, version, write_sheet, Graph, Job, Refusal, Room, RoomRefusal,
    Sizes, TaskGraph, WriteRefusal,
};

/// The sheet of `docs/RULES.md`: jobs 1, 2, 3 and 4 needing 1 and 2.
const FOUR_JOBS: [u8; 29] = [1, 1, 0, 0, 0, 1, 2, 0, 0, 0, 1, 3, 0, 0, 0, 3, 4, 0, 0, 0, 2, 1, 0, 0, 0, 2, 0, 0, 0];

fn four_jobs() -> Vec<Job> {
    vec![Job::new(1, &[]), Job::new(2, &[]), Job::new(3, &[]), Job::new(4, &[1, 2])]
}

#[test]
fn the_sheet_of_the_rules() {
    assert_eq!(read_sheet(&FOUR_JOBS), Ok(four_jobs()));
    assert_eq!(write_sheet(&four_jobs()), Ok(FOUR_JOBS.to_vec()));
    let day = "jobs 4 workers 2\n0 1 0\n1 2 1\n2 3 0\n3 4 1\nleft 0\n";
    assert_eq!(day_list(&FOUR_JOBS, 2), Ok(day.into()));
}

#[test]
fn written_and_read_back() {
    let longest: Vec<u32> = (100..132).collect();
    let jobs =
        [Job { class: 15, grower: 65_535, ..Job::new(u32::MAX, &longest) }, Job { grower: 1, ..Job::new(0, &[7]) }];
    let sheet = write_sheet(&jobs).expect("all values are on their limits");
    assert_eq!(sheet.len(), 137 + 12);
    assert_eq!(read_sheet(&sheet), Ok(jobs.to_vec()));
    assert_eq!(write_sheet(&[]), Ok(Vec::new()));
    assert_eq!(read_sheet(&[]), Ok(Vec::new()));
}

#[test]
fn faults_of_a_sheet() {
    assert_eq!(read_sheet(&FOUR_JOBS[..28]), Err(Refusal::Cut { at: 20 }));
    assert_eq!(read_sheet(&[1, 1, 0, 0, 0, 2]), Err(Refusal::Map { at: 5 }));
    assert_eq!(read_sheet(&[5, 7, 0, 0, 0, 0]), Err(Refusal::Value { at: 5 }));
}

#[test]
fn jobs_that_cannot_be_written() {
    let refused = |entry, at| Err(WriteRefusal { entry, refusal: Refusal::Value { at } });
    let long: Vec<u32> = (10..43).collect();
    assert_eq!(write_sheet(&[Job::new(1, &[]), Job::new(2, &long)]), refused(1, 5));
    assert_eq!(write_sheet(&[Job { class: 16, ..Job::new(1, &[2]) }]), refused(0, 10));
    let text = write_sheet(&[Job { grower: 65_536, ..Job::new(1, &[]) }]).map_err(|error| error.to_string());
    assert_eq!(text, Err("entry 0: a field's value is out of range (byte 5)".into()));
}

#[test]
fn the_room_of_a_sheet() {
    assert_eq!(room_of_sheet(&FOUR_JOBS), Ok(Room { jobs: 4, arcs: 2, steps: 22 }));
    assert_eq!(room_of_sheet(&[]), Ok(Room::default()));
}

#[test]
fn a_graph_with_the_room_accepts_the_sheet() {
    let room = room_of_sheet(&FOUR_JOBS).expect("all four are accepted");
    let sizes = |jobs, arcs| Sizes { jobs, arcs, bits: 1, workers: 1 };
    for (jobs, arcs) in [(4, 2), (4, 3), (5, 2), (4_096, 32_768), (3, 2), (4, 1), (3, 1)] {
        let mut graph = Graph::create(sizes(jobs, arcs)).expect("the sizes are within their limits");
        let refused: Vec<Refusal> =
            graph.add_all(0, &four_jobs()).expect("worker 0 is idle").into_iter().filter_map(Result::err).collect();
        assert_eq!(room.fits(sizes(jobs, arcs)), refused.is_empty());
        assert!(refused.is_empty() || refused == [Refusal::Full]);
    }
}

#[test]
fn sheets_that_no_graph_accepts_whole() {
    let room = |jobs: &[Job]| room_of_sheet(&write_sheet(jobs).expect("all values are on their limits"));
    let turned_away = |entry, refusal| Err(RoomRefusal::TurnedAway { entry, refusal });
    let one = || Job::new(1, &[]);
    assert_eq!(room(&[one(), Job::new(2, &[2])]), turned_away(1, Refusal::Arguments));
    assert_eq!(room(&[Job::new(3, &[1, 1])]), turned_away(0, Refusal::Arguments));
    assert_eq!(
        room(&[one(), Job::new(3, &[1, 2]), Job::new(2, &[])]),
        turned_away(1, Refusal::UnknownName { place: 1 })
    );
    assert_eq!(room(&[one(), Job::new(2, &[]), one()]), turned_away(2, Refusal::NamePresent));
    let many: Vec<Job> = (0..4_097).map(|name| Job::new(name, &[])).collect();
    assert_eq!(room(&many), turned_away(4_096, Refusal::Full));
    assert_eq!(room(&many[1..]), Ok(Room { jobs: 4_096, arcs: 0, steps: 16_384 }));
    let text = room(&[one(), one()]).map_err(|error| error.to_string());
    assert_eq!(text, Err("entry 1: the name has a job already".into()));
}

/// What cannot be read is told even where an earlier entry would be refused.
#[test]
fn sheets_that_cannot_be_read_have_no_room() {
    let refused = [3, 7, 0, 0, 0, 1, 7, 0, 0, 0];
    let room = |bytes: &[u8]| room_of_sheet(&[&refused[..], bytes].concat());
    assert_eq!(room(&[]), Err(RoomRefusal::TurnedAway { entry: 0, refusal: Refusal::Arguments }));
    assert_eq!(room(&[1, 1, 0, 0]), Err(RoomRefusal::Unreadable(Refusal::Cut { at: 11 })));
    assert_eq!(room(&[2]), Err(RoomRefusal::Unreadable(Refusal::Map { at: 10 })));
    assert_eq!(room(&[5, 7, 0, 0, 0, 0]), Err(RoomRefusal::Unreadable(Refusal::Value { at: 15 })));
    let text = room(&[2]).map_err(|error| error.to_string());
    assert_eq!(text, Err("wrong map byte (byte 10)".into()));
}

#[test]
fn day_lists() {
    assert_eq!(day_list(&[], 0), Err(Refusal::Size));
    assert_eq!(day_list(&[], 17), Err(Refusal::Size));
    assert_eq!(day_list(&[0; 32_769], 2), Ok("broken 32768 12\n".into()));
}

/// The greatest day list: 256 jobs with names of ten digits, then as many refused entries as a sheet takes, and
/// sixteen workers.
#[test]
fn the_greatest_day_list_has_room() {
    let mut jobs: Vec<Job> = (1..=256).map(|low| Job::new(u32::MAX - low, &[])).collect();
    while jobs.len() < 32_768 / 5 {
        jobs.push(jobs[0].clone());
    }
    let sheet = write_sheet(&jobs).expect("all values are on their limits");
    assert_eq!(day_list(&sheet, 2).map(|day| day.len()), Ok(97_979));
    // A byte more for each hand-out of the workers 10 to 15, and one for their number.
    assert_eq!(day_list(&sheet, 16).map(|day| day.len()), Ok(97_979 + 256 / 16 * 6 + 1));
}

#[test]
fn the_library_is_of_this_packages_version() {
    assert_eq!(version(), env!("CARGO_PKG_VERSION"));
}

#[test]
fn buckets_and_minutes() {
    assert_eq!([1, 2, 3, 4, 5].map(|name| bucket(name, 2)), [2, 0, 3, 1, 0]);
    assert_eq!([0, 15, 16].map(minutes), [1, 480, 0]);
}
