//! A sheet as a file has it.

use taskgraph::{write_sheet, Job};

use crate::{
    fault::{Fault, Kind},
    Form,
};

/// Where the parts of an entry stand in the file: offsets in bytes.
#[derive(Clone, Debug, Default, PartialEq, Eq)]
pub struct Offsets {
    /// The entry itself.
    pub entry: usize,
    /// Its name.
    pub name: usize,
    /// Each name of its list, in order.
    pub needs: Vec<usize>,
    /// Its class, where it is written.
    pub class: usize,
    /// Its grower, where it is written.
    pub grower: usize,
}

/// An entry of a sheet: a job, and where it stands.
#[derive(Clone, Debug, Default, PartialEq, Eq)]
pub struct Entry {
    /// Its line, from 1; bytes have none.
    pub line: Option<usize>,
    /// Where its parts stand.
    pub at: Offsets,
    /// Its name, where that can be read, also if something else cannot.
    pub name: Option<u32>,
    /// The job, where all of it can be read.
    pub job: Option<Job>,
    /// Otherwise what can be read of it.
    pub rest: Option<Job>,
}

impl Entry {
    /// The names that the job needs, as far as they can be read.
    pub fn needs(&self) -> &[u32] {
        self.job.as_ref().or(self.rest.as_ref()).map_or(&[], |job| &job.prerequisites)
    }
}

/// What was read of a file.
#[derive(Clone, Debug, PartialEq, Eq)]
pub struct Sheet {
    /// The form that it was read in.
    pub form: Form,
    /// Its entries, those that cannot be read too.
    pub entries: Vec<Entry>,
    /// What cannot be read, in the order in which it was met.
    pub faults: Vec<Fault>,
    /// Whether all of it can be read.
    pub whole: bool,
}

impl Sheet {
    /// A sheet without entries.
    pub fn new(form: Form) -> Sheet {
        Sheet { form, entries: Vec::new(), faults: Vec::new(), whole: true }
    }

    /// Something of it cannot be read.
    pub fn note(&mut self, fault: Fault) {
        self.whole = false;
        self.faults.push(fault);
    }

    /// The entry is the next one, and these are its faults with their offsets. With a fault it has no job.
    pub fn push(&mut self, mut entry: Entry, faults: impl IntoIterator<Item = (usize, Kind)>) {
        let number = self.entries.len();
        for (at, kind) in faults {
            entry.rest = entry.rest.or_else(|| entry.job.take());
            self.note(Fault { entry: Some(number), line: entry.line, at, job: entry.name, kind });
        }
        self.entries.push(entry);
    }

    /// The jobs, where every entry can be read.
    pub fn jobs(&self) -> Option<Vec<Job>> {
        if !self.whole {
            return None;
        }
        self.entries.iter().map(|entry| entry.job.clone()).collect()
    }

    /// The packed sheet, where every entry can be read and written.
    pub fn packed(&self) -> Option<Vec<u8>> {
        write_sheet(&self.jobs()?).ok()
    }
}
