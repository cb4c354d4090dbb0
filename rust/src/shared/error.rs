//! Why a call of a shared graph fails.

use std::{error::Error, fmt, io};

use crate::Refusal;

/// Why a call of a [`SharedGraph`](crate::SharedGraph) fails.
#[derive(Debug)]
#[non_exhaustive]
pub enum SharedError {
    /// The library turned the call away.
    Refused(Refusal),
    /// The system refused the file, the mapping or the lock.
    System(io::Error),
    /// The file is no shared graph, or one of another version of this package.
    Foreign,
    /// A process died inside a call, so the words may be half written.
    Torn,
}

impl fmt::Display for SharedError {
    fn fmt(&self, f: &mut fmt::Formatter<'_>) -> fmt::Result {
        match self {
            SharedError::Refused(refusal) => refusal.fmt(f),
            SharedError::System(error) => error.fmt(f),
            SharedError::Foreign => f.write_str("the file is no shared graph of this version"),
            SharedError::Torn => f.write_str("a process died inside a call; the graph must be created anew"),
        }
    }
}

impl Error for SharedError {
    fn source(&self) -> Option<&(dyn Error + 'static)> {
        match self {
            SharedError::Refused(refusal) => Some(refusal),
            SharedError::System(error) => Some(error),
            SharedError::Foreign | SharedError::Torn => None,
        }
    }
}

impl From<Refusal> for SharedError {
    fn from(refusal: Refusal) -> SharedError {
        SharedError::Refused(refusal)
    }
}

impl From<io::Error> for SharedError {
    fn from(error: io::Error) -> SharedError {
        SharedError::System(error)
    }
}
