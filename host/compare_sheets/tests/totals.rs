//! The board of totals: the library and the second implementation answer alike.

use compare_sheets::{
    case::Comparison,
    inputs, minute_values,
    random::Random,
    totals::{ByMinutes, Row},
};
use second_implementation::totals::MAX_RECORDS;

/// `len` words of records with labels and classes on their limits.
fn row(random: &mut Random, len: usize) -> Vec<u32> {
    (0..len).map(|place| random.below(if place % 2 == 0 { 3 } else { 16 }) as u32).collect()
}

#[test]
fn rows_of_every_short_length() {
    let (mut comparison, mut random) = Comparison::new("totals, rows of every short length");
    for len in 0..=400 {
        for _ in 0..20 {
            comparison.check(Row { words: row(&mut random, len) });
        }
    }
    comparison.finish();
}

#[test]
fn wrong_words_at_every_place() {
    let (mut comparison, mut random) = Comparison::new("totals, wrong labels and classes at every place");
    for len in [2, 4, 10, 63, 200] {
        let words = row(&mut random, len);
        for place in 0..len {
            for value in [0, 1, 2, 3, 4, 14, 15, 16, 17, 255, 256, 257, 1 << 31, u32::MAX] {
                let mut words = words.clone();
                words[place] = value;
                comparison.check(Row { words });
            }
        }
    }
    comparison.finish();
}

#[test]
fn random_rows() {
    let (mut comparison, mut random) = Comparison::new("totals, random rows");
    for _ in 0..20_000 {
        let len = random.below(120);
        let mut words = row(&mut random, len);
        while len > 0 && random.once_in(2) {
            words[random.below(len)] = inputs::word(&mut random);
        }
        comparison.check(Row { words });
    }
    comparison.finish();
}

#[test]
fn rows_around_the_longest() {
    let (mut comparison, mut random) = Comparison::new("totals, rows around 4,096 records");
    let longest = 2 * MAX_RECORDS;
    for len in (longest - 5..=longest + 5).chain([2 * longest, 4 * longest + 2]) {
        for _ in 0..20 {
            let mut words = row(&mut random, len);
            comparison.check(Row { words: words.clone() });
            let place = random.pick(&[0, 1, len / 2, len - 2, len - 1]);
            words[place] = random.pick(&[3, 16, u32::MAX]);
            comparison.check(Row { words });
        }
        comparison.check(Row { words: [2, 15].iter().copied().cycle().take(len).collect() });
    }
    comparison.finish();
}

#[test]
fn rows_by_minutes() {
    let (mut comparison, mut random) = Comparison::new("totals, rows by a district's minutes");
    for _ in 0..40_000 {
        let len = 2 * random.below(40);
        let mut words = row(&mut random, len);
        if len > 0 && random.once_in(4) {
            words[random.below(len)] = inputs::word(&mut random);
        }
        let minutes =
            if random.once_in(3) { minute_values::wrong(&mut random) } else { minute_values::right(&mut random) };
        comparison.check(ByMinutes { words, minutes });
    }
    comparison.finish();
}

/// Each value at each class, on and off its limits and those of its neighbours.
#[test]
fn minutes_of_every_class() {
    let (mut comparison, mut random) = Comparison::new("totals, minute values of every class");
    let words = row(&mut random, 64);
    for _ in 0..20 {
        let right = minute_values::right(&mut random);
        for class in 0..right.len() {
            let near = [right[class.saturating_sub(1)], right[class], right[(class + 1).min(right.len() - 1)]];
            let around = near.iter().flat_map(|value| [value - 1, *value, value + 1]);
            for value in around.chain([0, 1, 1_439, 1_440, 1_441, 1 << 16, 1 << 31, u32::MAX]) {
                let mut minutes = right.clone();
                minutes[class] = value;
                comparison.check(ByMinutes { words: words.clone(), minutes });
            }
        }
    }
    comparison.finish();
}

/// The order of 1, 17 and 9.
#[test]
fn long_rows_by_minutes() {
    let (mut comparison, mut random) = Comparison::new("totals, rows around 4,096 records by minutes");
    for records in MAX_RECORDS - 2..=MAX_RECORDS + 2 {
        for wrong in [false, false, true] {
            for damaged in [false, false, true] {
                let mut words = row(&mut random, 2 * records);
                if damaged {
                    words[random.below(2 * records)] = u32::MAX;
                }
                let minutes = if wrong { minute_values::wrong(&mut random) } else { minute_values::right(&mut random) };
                comparison.check(ByMinutes { words, minutes });
            }
        }
        let longest = [2, 15].iter().copied().cycle().take(2 * records).collect();
        comparison.check(ByMinutes { words: longest, minutes: (1_425..=1_440).collect() });
    }
    comparison.finish();
}
