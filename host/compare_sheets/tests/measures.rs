//! Buckets and minutes: the library and the second implementation answer alike.

use compare_sheets::{
    case::Comparison,
    inputs,
    measures::{Bucket, Minutes},
};

#[test]
fn buckets() {
    let (mut comparison, mut random) = Comparison::new("buckets, 0 to 40 bits and more");
    let mut names: Vec<u32> = (0..1_000).collect();
    names.extend((0..32).flat_map(|bit| [1 << bit, (1 << bit) - 1, !(1 << bit)]));
    names.extend((0..1_500).map(|_| inputs::word(&mut random)));
    for name in names {
        for bits in (0..=40).chain([63, 64, 65, 256, 1 << 31, u32::MAX]) {
            comparison.check(Bucket { name, bits });
        }
    }
    comparison.finish();
}

#[test]
fn minutes() {
    let (mut comparison, mut random) = Comparison::new("minutes, classes 0 to 1,000 and beyond");
    for class in (0..=1_000).chain([65_535, 65_536, 65_537, 1 << 31, u32::MAX - 1, u32::MAX]) {
        comparison.check(Minutes { class });
    }
    for _ in 0..1_000 {
        comparison.check(Minutes { class: random.word() });
    }
    comparison.finish();
}
