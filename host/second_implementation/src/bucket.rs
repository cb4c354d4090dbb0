//! The bucket of a name (docs/RULES.md, "Tables and their measures").

/// The factor that spreads names over the buckets.
const FACTOR: u32 = 2_654_435_769;

/// The bucket of `name` among 2 to the power `bits` buckets: the top `bits` bits of its product with
/// [`FACTOR`], kept to 32 bits. No bits leave bucket 0, and 32 or more the whole product.
pub fn bucket(name: u32, bits: u32) -> u32 {
    let product = name.wrapping_mul(FACTOR);
    match bits {
        0 => 0,
        1..=31 => product >> (u32::BITS - bits),
        _ => product,
    }
}

#[cfg(test)]
mod tests {
    use super::*;

    #[test]
    fn five_names_in_four_buckets() {
        let buckets: Vec<u32> = (1..=5).map(|name| bucket(name, 2)).collect();
        assert_eq!(buckets, [2, 0, 3, 1, 0]);
    }

    #[test]
    fn a_bucket_is_below_the_number_of_buckets() {
        for bits in 0..=8 {
            assert!((0..10_000).all(|name| bucket(name, bits) < 1 << bits));
        }
    }

    #[test]
    fn ends_of_the_range_of_bits() {
        assert_eq!(bucket(u32::MAX, 0), 0);
        assert_eq!(bucket(1, 1), 1);
        assert_eq!(bucket(1, 31), 2_654_435_769 >> 1);
        assert_eq!(bucket(1, 32), 2_654_435_769);
        assert_eq!(bucket(2, u32::MAX), 1_013_904_242);
    }

    #[test]
    fn one_more_bit_halves_each_bucket() {
        for bits in 0..32 {
            assert!((0..1_000).all(|name| bucket(name, bits + 1) >> 1 == bucket(name, bits)));
        }
    }
}
