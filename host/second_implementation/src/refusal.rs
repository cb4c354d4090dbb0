//! The numbers of the refusals (docs/RULES.md, "Turned-away calls").

/// A size off its limits, or not the one laid out.
pub const SIZE: u32 = 1;
/// A worker number that is not below the number of workers.
pub const WORKER: u32 = 2;
/// A post or a get while that worker's call is half done.
pub const HALF_DONE: u32 = 3;
/// A step while the worker is idle.
pub const IDLE: u32 = 4;
/// An add with wrong arguments.
pub const ARGUMENTS: u32 = 5;
/// A look-up finds no such name.
pub const UNKNOWN_NAME: u32 = 6;
/// Entering finds the name present.
pub const NAME_PRESENT: u32 = 7;
/// Entering finds no room for the job or for its arcs.
pub const FULL: u32 = 8;
/// Damaged words.
pub const DAMAGED: u32 = 9;
/// A get while holding a job.
pub const HOLDING: u32 = 10;
/// A finish of a name that this worker does not hold.
pub const NOT_HELD: u32 = 11;
/// The sheet ends inside an entry.
pub const CUT: u32 = 12;
/// Bit 0 of the map byte is clear, or one of its bits 4 to 7 is set.
pub const MAP: u32 = 13;
/// A field's value is off its limits.
pub const VALUE: u32 = 14;
/// The output lacks bytes for what is to be written.
pub const NO_ROOM: u32 = 15;
/// A sheet of more entries than one call takes.
pub const TOO_MANY_ENTRIES: u32 = 16;
/// Minute values that do not rise strictly from class to class, or leave 1 to 1,440.
pub const MINUTES: u32 = 17;
/// A load after a job has entered.
pub const ENTERED: u32 = 18;
/// A finish as good of a spoiled job.
pub const GOOD_FOR_SPOILED: u32 = 19;
