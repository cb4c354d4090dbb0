//! A job as growers write it.

use crate::raw::{Entry, MAX_NAMES};

/// A job: an entry of a sheet, and what an add brings.
///
/// Any values may stand here; what is out of range is refused where the job is added (5) or written (14).
#[derive(Clone, Debug, Default, PartialEq, Eq, Hash)]
pub struct Job {
    /// Its name, any number.
    pub name: u32,
    /// The names of the jobs that must be finished first, at most 32.
    pub prerequisites: Vec<u32>,
    /// Its class, 0 to 15, which says its minutes.
    pub class: u32,
    /// Its grower, 0 to 65,535; 0 is the network itself.
    pub grower: u32,
}

impl Job {
    /// A job of class 0 and grower 0.
    pub fn new(name: u32, prerequisites: &[u32]) -> Job {
        Job { name, prerequisites: prerequisites.to_vec(), ..Job::default() }
    }

    /// A list that is too long keeps its count, so that it is refused.
    pub(crate) fn to_entry(&self) -> Entry {
        let mut names = [0; MAX_NAMES];
        names.iter_mut().zip(&self.prerequisites).for_each(|(name, listed)| *name = *listed);
        let count = u32::try_from(self.prerequisites.len()).unwrap_or(u32::MAX);
        Entry { name: self.name, count, class: self.class, grower: self.grower, names }
    }

    pub(crate) fn from_entry(entry: &Entry) -> Job {
        let Entry { name, count, class, grower, names } = *entry;
        Job { name, prerequisites: names[..count as usize].to_vec(), class, grower }
    }
}
