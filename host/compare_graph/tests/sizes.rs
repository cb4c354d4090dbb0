//! The words that tables need, and the totals of a graph, for sizes on and off their limits.

use compare_graph::{
    generate::other_sizes,
    layout::{words_needed, JOBS_HEADER},
    sizes::SizesBrought,
};
use compare_sheets::{case::Comparison, minute_values, random::Random};
use second_implementation::{
    graph::Sizes,
    minutes::{Minutes, CLASSES},
};

/// Each limit, what is just on and off it, and numbers at which a product or a shift wraps.
const SIZES: [u32; 17] = [0, 1, 2, 7, 8, 9, 15, 16, 17, 4_095, 4_096, 4_097, 32_767, 32_768, 32_769, 1 << 29, u32::MAX];

fn alone(sizes: Sizes) -> SizesBrought {
    SizesBrought { sizes, laid_out: sizes, jobs: Vec::new(), minutes: *Minutes::FIXED.values(), jobs_len: JOBS_HEADER }
}

#[test]
fn sizes_on_and_off_their_limits() {
    let (mut comparison, _) = Comparison::new("graph, sizes on and off their limits");
    for jobs in SIZES {
        for arcs in SIZES {
            for bits in SIZES {
                for workers in SIZES {
                    comparison.check(alone(Sizes { jobs, arcs, bits, workers }));
                }
            }
        }
    }
    comparison.finish();
}

fn jobs(random: &mut Random, most: usize) -> Vec<[u32; 2]> {
    let wrong = random.once_in(4);
    let record = |random: &mut Random| match random.below(20) {
        0 if wrong => [random.pick(&[3, 4, u32::MAX]), 0],
        1 if wrong => [0, random.pick(&[16, 17, u32::MAX])],
        _ => [random.below(3) as u32, random.below(16) as u32],
    };
    (0..random.below(most + 1)).map(|_| record(random)).collect()
}

/// Minutes that stand in a table, a third of them wrong.
fn minutes(random: &mut Random) -> [u32; CLASSES] {
    let mut values = if random.once_in(3) { minute_values::wrong(random) } else { minute_values::right(random) };
    values.resize(CLASSES, 0);
    values.try_into().expect("there are as many as classes")
}

#[test]
fn totals_of_graphs() {
    let (mut comparison, mut random) = Comparison::new("graph, totals");
    for number in 0..20_000 {
        let most = if number % 100 == 0 { 4_096 } else { 12 };
        let laid_out = Sizes {
            jobs: 1 + random.below(most) as u32,
            arcs: random.below(40) as u32,
            bits: 1 + random.below(8) as u32,
            workers: 1 + random.below(16) as u32,
        };
        let sizes = if random.once_in(6) { other_sizes(&mut random, laid_out) } else { laid_out };
        // One job more than there is room for is a counter over R.
        let jobs = jobs(&mut random, laid_out.jobs as usize + 1);
        let need = words_needed(laid_out)[0];
        let jobs_len =
            random.pick(&[need, need, need + 8, need + 9, need - 1, JOBS_HEADER, JOBS_HEADER - 1, 5, 4, 1, 0]);
        let minutes = minutes(&mut random);
        comparison.check(SizesBrought { sizes, laid_out, jobs, minutes, jobs_len });
    }
    comparison.finish();
}
