//! Random minute values, such as a district may load and such as it may not.

use second_implementation::minutes::{Minutes, CLASSES, MAX_MINUTES};

use crate::{inputs, random::Random};

/// Minute values that may be loaded: the fixed ones, the least, the greatest, or any that rise.
pub fn right(random: &mut Random) -> Vec<u32> {
    let first = match random.below(8) {
        0 => return Minutes::FIXED.values().to_vec(),
        1 => 1,
        2 => MAX_MINUTES + 1 - CLASSES as u32,
        3 => 1 + random.below(MAX_MINUTES as usize + 1 - CLASSES) as u32,
        _ => return rising(random),
    };
    (first..).take(CLASSES).collect()
}

/// Values anywhere within the limits, each once, in order.
fn rising(random: &mut Random) -> Vec<u32> {
    let most = random.pick(&[20, 100, MAX_MINUTES as usize]);
    let mut values = Vec::with_capacity(CLASSES);
    while values.len() < CLASSES {
        let value = 1 + random.below(most) as u32;
        if !values.contains(&value) {
            values.push(value);
        }
    }
    values.sort_unstable();
    if random.once_in(3) {
        values[CLASSES - 1] = MAX_MINUTES;
    }
    values
}

/// Minute values with something wrong, mostly by one word alone: too few or too many, equal neighbours, two exchanged,
/// a value off its limits, or any words.
pub fn wrong(random: &mut Random) -> Vec<u32> {
    let mut values = right(random);
    let class = random.below(CLASSES - 1);
    match random.below(9) {
        0 => values.truncate(random.pick(&[CLASSES - 1, CLASSES - 1, CLASSES - 2, 1, 0])),
        1 => {
            let more = random.pick(&[1, 1, 2, CLASSES]);
            let last = values[CLASSES - 1];
            values.extend((1..=more as u32).map(|above| last + above));
        }
        2 => values[class + 1] = values[class],
        3 => values[class] = values[class + 1],
        4 => values.swap(class, class + 1),
        5 => values[0] = 0,
        6 => values[CLASSES - 1] = random.pick(&[MAX_MINUTES + 1, MAX_MINUTES + 2, 1 << 16, 1 << 31, u32::MAX]),
        7 => values[class] = random.pick(&[0, MAX_MINUTES + 1, u32::MAX]),
        _ => values.fill_with(|| inputs::word(random)),
    }
    values
}

#[cfg(test)]
mod tests {
    use super::*;

    /// The wrong values are wrong, each test of them alone too: only that of the length, of the order, of the least and
    /// of the most.
    #[test]
    fn minute_values_are_right_and_wrong() {
        let mut random = Random::new(1993, "minute values");
        let mut met = [0_usize; 4];
        for _ in 0..20_000 {
            let values = right(&mut random);
            assert!(Minutes::of(&values).is_some(), "{values:?}");
            let wrong = wrong(&mut random);
            assert_eq!(Minutes::of(&wrong), None, "{wrong:?}");
            let faults = [
                wrong.len() != CLASSES,
                !wrong.windows(2).all(|pair| pair[0] < pair[1]),
                wrong.contains(&0),
                wrong.iter().any(|value| *value > MAX_MINUTES),
            ];
            if faults.iter().filter(|fault| **fault).count() == 1 {
                met[faults.iter().position(|fault| *fault).expect("there is one")] += 1;
            }
        }
        assert!(met.iter().all(|count| *count > 100), "alone: {met:?}");
    }
}
