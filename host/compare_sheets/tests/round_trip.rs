//! The library's writer and reader undo each other (demand 2): a sheet written and read back gives
//! the same jobs, and one accepted sheet has one spelling.

use compare_sheets::{
    case::Comparison,
    inputs,
    round_trip::{ReadAndWritten, WrittenAndRead},
};

#[test]
fn written_and_read_back() {
    let (mut comparison, mut random) = Comparison::new("round trip, written and read back");
    for round in 0..20_000 {
        let count = if round % 1_000 == 0 { 700 } else { random.below(12) };
        let entries = inputs::entries(&mut random, count);
        comparison.check(WrittenAndRead { rows: inputs::rows(&entries) });
    }
    comparison.finish();
}

#[test]
fn an_accepted_sheet_has_one_spelling() {
    let (mut comparison, mut random) = Comparison::new("round trip, accepted sheets read and written again");
    let mut accepted = 0;
    while accepted < 20_000 {
        let mut sheet = inputs::loose_sheet(&mut random);
        if random.once_in(2) {
            inputs::damage(&mut random, &mut sheet);
        }
        let case = ReadAndWritten { sheet };
        if case.is_accepted() {
            accepted += 1;
            comparison.check(case);
        }
    }
    comparison.finish();
}
