//! Job sheets (`docs/SHEETS.md`).

use std::{error::Error, fmt};

use crate::{
    raw::{self, MAX_ENTRY_BYTES},
    Job, Refusal, Sizes,
};

/// The jobs of a sheet, in its order.
///
/// # Errors
/// [`Refusal::Cut`], [`Refusal::Map`] or [`Refusal::Value`], with the offset of the field.
///
/// ```
/// # use taskgraph::{read_sheet, Job, Refusal};
/// let sheet = [1, 1, 0, 0, 0, 3, 4, 0, 0, 0, 1, 1, 0, 0, 0];
/// assert_eq!(read_sheet(&sheet), Ok(vec![Job::new(1, &[]), Job::new(4, &[1])]));
/// assert_eq!(read_sheet(&sheet[..14]), Err(Refusal::Cut { at: 10 }));
/// ```
pub fn read_sheet(sheet: &[u8]) -> Result<Vec<Job>, Refusal> {
    let mut jobs = Vec::new();
    let mut at = 0;
    loop {
        let reading = raw::read_entry(sheet, at);
        Refusal::unless_accepted(reading.number, reading.at)?;
        if reading.found == 0 {
            return Ok(jobs);
        }
        jobs.push(Job::from_entry(&reading.entry));
        at = reading.at;
    }
}

/// The sheet of jobs. One list of jobs has one sheet, and reading gives the jobs back.
///
/// # Errors
/// [`Refusal::Value`] for the first job with a value out of range.
pub fn write_sheet(jobs: &[Job]) -> Result<Vec<u8>, WriteRefusal> {
    let mut sheet = Vec::new();
    for (entry, job) in jobs.iter().enumerate() {
        let at = sheet.len();
        sheet.resize(at + MAX_ENTRY_BYTES, 0);
        let written = raw::write_entry(&mut sheet, at, job.to_entry());
        Refusal::unless_accepted(written.number, written.at).map_err(|refusal| WriteRefusal { entry, refusal })?;
        sheet.truncate(written.at);
    }
    Ok(sheet)
}

/// Why jobs cannot be written as a sheet.
#[derive(Clone, Copy, Debug, PartialEq, Eq, Hash)]
pub struct WriteRefusal {
    /// The place of the refused job, from 0.
    pub entry: usize,
    /// The refusal; an offset runs from the entry's start.
    pub refusal: Refusal,
}

impl fmt::Display for WriteRefusal {
    fn fmt(&self, f: &mut fmt::Formatter<'_>) -> fmt::Result {
        write!(f, "entry {}: {}", self.entry, self.refusal)
    }
}

impl Error for WriteRefusal {}

/// The room that a sheet needs in a graph, and the steps that its jobs take.
#[derive(Clone, Copy, Debug, Default, PartialEq, Eq, Hash)]
pub struct Room {
    /// Its jobs.
    pub jobs: u32,
    /// The names of all their lists together.
    pub arcs: u32,
    /// The steps of a full run: all adds end before the first get, and every job is handed out and finished. Gets that
    /// hand nothing out are not counted.
    pub steps: u32,
}

impl Room {
    /// Whether a fresh graph of these sizes has the room, and so accepts the whole sheet.
    pub fn fits(&self, sizes: Sizes) -> bool {
        self.jobs <= sizes.jobs && self.arcs <= sizes.arcs
    }
}

/// The room that a sheet needs, if a fresh graph of greatest size would accept every entry. Nothing is added anywhere:
/// a host judges a sheet by it before it touches its graph. It takes some 33 KB of the thread's stack.
///
/// # Errors
/// [`RoomRefusal::Unreadable`], whatever its earlier entries are; else [`RoomRefusal::TurnedAway`].
///
/// ```
/// # use taskgraph::{room_of_sheet, Refusal, Room, RoomRefusal, Sizes};
/// let sheet = [1, 1, 0, 0, 0, 3, 4, 0, 0, 0, 1, 1, 0, 0, 0];
/// let room = Room { jobs: 2, arcs: 1, steps: 11 };
/// assert_eq!(room_of_sheet(&sheet), Ok(room));
/// assert!(!room.fits(Sizes { jobs: 16, arcs: 0, bits: 4, workers: 2 }));
///
/// let refusal = Refusal::UnknownName { place: 0 };
/// assert_eq!(room_of_sheet(&sheet[5..]), Err(RoomRefusal::TurnedAway { entry: 0, refusal }));
/// assert_eq!(room_of_sheet(&sheet[..14]), Err(RoomRefusal::Unreadable(Refusal::Cut { at: 10 })));
/// ```
pub fn room_of_sheet(sheet: &[u8]) -> Result<Room, RoomRefusal> {
    let raw::Room { number, entry, place, jobs, arcs, steps, at } = raw::room_of_sheet(sheet);
    match number {
        0 => Ok(Room { jobs, arcs, steps }),
        5..=8 => Err(RoomRefusal::TurnedAway { entry: entry as usize, refusal: Refusal::of(number, place as usize) }),
        _ => Err(RoomRefusal::Unreadable(Refusal::of(number, at))),
    }
}

/// Why a sheet has no room that could be told.
#[derive(Clone, Copy, Debug, PartialEq, Eq, Hash)]
pub enum RoomRefusal {
    /// The sheet cannot be read: [`Refusal::Cut`], [`Refusal::Map`] or [`Refusal::Value`], with the field's offset.
    Unreadable(Refusal),
    /// A fresh graph of greatest size would refuse an entry.
    TurnedAway {
        /// The first such entry, from 0.
        entry: usize,
        /// [`Refusal::Arguments`], [`Refusal::UnknownName`], [`Refusal::NamePresent`] or [`Refusal::Full`].
        refusal: Refusal,
    },
}

impl fmt::Display for RoomRefusal {
    fn fmt(&self, f: &mut fmt::Formatter<'_>) -> fmt::Result {
        match self {
            RoomRefusal::Unreadable(refusal) => refusal.fmt(f),
            RoomRefusal::TurnedAway { entry, refusal } => write!(f, "entry {entry}: {refusal}"),
        }
    }
}

impl Error for RoomRefusal {}
