//! The minutes of a job by its class (docs/RULES.md, "Tables and their measures" and "A district's minutes"): fixed, or
//! loaded by a district.

/// The classes, 0 to 15.
pub const CLASSES: usize = 16;
/// The most minutes that a class may have.
pub const MAX_MINUTES: u32 = 1_440;

/// Sixteen minute values that rise strictly from class to class, each from 1 to [`MAX_MINUTES`].
#[derive(Clone, Copy, Debug, PartialEq, Eq)]
pub struct Minutes([u32; CLASSES]);

impl Minutes {
    /// Those of a fresh graph.
    pub const FIXED: Minutes = Minutes([1, 2, 3, 5, 8, 10, 15, 20, 30, 45, 60, 90, 120, 180, 240, 480]);

    /// These values, if they may be loaded.
    pub fn of(values: &[u32]) -> Option<Minutes> {
        let values = <[u32; CLASSES]>::try_from(values).ok()?;
        let mut above = 0;
        for value in values {
            if value <= above || value > MAX_MINUTES {
                return None;
            }
            above = value;
        }
        Some(Minutes(values))
    }

    pub fn values(&self) -> &[u32; CLASSES] {
        &self.0
    }

    /// The minutes of `class`, if there is such a class.
    pub fn of_class(&self, class: u32) -> Option<u32> {
        self.0.get(usize::try_from(class).ok()?).copied()
    }
}

/// The fixed minutes of `class`, if there is such a class.
pub fn minutes(class: u32) -> Option<u32> {
    Minutes::FIXED.of_class(class)
}

#[cfg(test)]
mod tests {
    use super::*;

    #[test]
    fn sixteen_classes_of_rising_minutes() {
        assert_eq!(minutes(0), Some(1));
        assert_eq!(minutes(15), Some(480));
        assert_eq!(Minutes::of(Minutes::FIXED.values()), Some(Minutes::FIXED));
        assert_eq!(Minutes::FIXED.values().iter().sum::<u32>(), 1_309);
    }

    #[test]
    fn no_other_class() {
        assert_eq!(minutes(16), None);
        assert_eq!(minutes(u32::MAX), None);
    }

    #[test]
    fn values_on_and_off_their_limits() {
        let rising: Vec<u32> = (1..=16).collect();
        assert!(Minutes::of(&rising).is_some());
        let last = |value: u32| [&rising[..15], &[value]].concat();
        assert!(Minutes::of(&last(1_440)).is_some());
        assert_eq!(Minutes::of(&last(1_441)), None);
        assert_eq!(Minutes::of(&last(15)), None, "equal neighbours");
        assert_eq!(Minutes::of(&last(14)), None, "the last falls");
        let from_0: Vec<u32> = (0..16).collect();
        assert_eq!(Minutes::of(&from_0), None);
        assert_eq!(Minutes::of(&rising[..15]), None);
        assert_eq!(Minutes::of(&[&rising[..], &[17]].concat()), None);
        assert_eq!(Minutes::of(&[]), None);
    }
}
