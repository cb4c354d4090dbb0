//! The proved task graph, with job sheets, the board of totals and the day list, for hosts in Rust.
//!
//! Jobs name the jobs they need first; workers take jobs whose prerequisites are finished, and each job goes to one
//! worker once. [`Graph`] keeps them in memory of its own, [`SharedGraph`] in a file that several processes map, with
//! a lock; both have the calls of [`TaskGraph`]. A call that is turned away answers a [`Refusal`].
//!
//! What is proved are the functions of the C interface, `include/taskgraph.h`, for all arguments. This package is a
//! thin layer of unproved Rust above them; [`raw`] has them one by one.
//!
//! ```
//! use taskgraph::{read_sheet, room_of_sheet, Graph, Job, Outcome, Refusal, Sizes, TaskGraph};
//!
//! // Jobs 1 and 2, then 3 needing both, as a job sheet; it fits, so every entry is accepted.
//! let sheet = [1, 1, 0, 0, 0, 1, 2, 0, 0, 0, 3, 3, 0, 0, 0, 2, 1, 0, 0, 0, 2, 0, 0, 0];
//! let sizes = Sizes { jobs: 16, arcs: 64, bits: 4, workers: 2 };
//! assert!(room_of_sheet(&sheet).expect("a graph accepts it").fits(sizes));
//! let mut graph = Graph::create(sizes)?;
//! assert_eq!(graph.add_all(0, &read_sheet(&sheet)?)?, [Ok(()), Ok(()), Ok(())]);
//! assert_eq!(graph.add(0, &Job::new(4, &[1, 9])), Err(Refusal::UnknownName { place: 1 }));
//!
//! // Worker 0 takes 1 and worker 1 takes 2; nobody gets 3 until both are finished.
//! let first = graph.get(0)?.expect("a job waits");
//! let second = graph.get(1)?.expect("a job waits");
//! assert_eq!((first.name, second.name), (1, 2));
//! graph.finish(0, first.name, Outcome::Good)?;
//! assert_eq!(graph.get(0)?, None);
//! graph.finish(1, second.name, Outcome::Good)?;
//! let third = graph.get(0)?.expect("a job waits");
//! assert_eq!((third.name, third.spoiled), (3, false));
//! graph.finish(0, third.name, Outcome::Good)?;
//! assert!(graph.drained()?);
//! assert_eq!(graph.totals()?.finished.jobs, 3);
//! # Ok::<(), Refusal>(())
//! ```

#![warn(missing_docs)]

/// The programs of the README are tests too.
#[cfg(doctest)]
#[doc = include_str!("../README.md")]
struct Readme;

mod day;
pub mod ffi;
mod graph;
mod job;
pub mod raw;
mod refusal;
#[cfg(all(target_os = "linux", target_pointer_width = "64"))]
mod shared;
mod sheet;
mod totals;

pub use day::day_list;
pub use graph::{Graph, HalfDone, HandedOut, Holding, Outcome, Progress, TaskGraph};
pub use job::Job;
pub use raw::{bucket, minutes, version, Sizes, CLASSES};
pub use refusal::Refusal;
#[cfg(all(target_os = "linux", target_pointer_width = "64"))]
pub use shared::{Locked, SharedError, SharedGraph};
pub use sheet::{read_sheet, room_of_sheet, write_sheet, Room, RoomRefusal, WriteRefusal};
pub use totals::{totals_by_minutes, Sum, Totals};
