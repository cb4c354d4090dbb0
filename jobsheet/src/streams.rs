//! The streams that the program was started with, and names that stand for them.

use std::{
    fs::File,
    io,
    os::{
        raw::c_int,
        unix::{
            fs::MetadataExt,
            io::{AsRawFd, FromRawFd, RawFd},
        },
    },
    path::{Component, Path, PathBuf},
    process,
    sync::atomic::{AtomicU8, Ordering::Relaxed},
};

extern "C" {
    fn dup(descriptor: c_int) -> c_int;
    fn fcntl(descriptor: c_int, command: c_int, ...) -> c_int;
}

/// `fcntl`'s command that only asks how a descriptor was opened, and the two ways in which it cannot be used for both.
const F_GETFL: c_int = 3;
const O_ACCMODE: c_int = 3;
const O_RDONLY: c_int = 0;
const O_WRONLY: c_int = 1;

/// The streams that could not be used when the program was started, a bit for each. Before `main` Rust puts an empty
/// device in the place of closed ones, and it takes one that is open the wrong way for empty; an answer would be lost.
static UNUSABLE: AtomicU8 = AtomicU8::new(0);

/// Looks at the three streams. It must be called before `main`.
pub extern "C" fn look() {
    for (stream, wrong) in [(0, O_WRONLY), (1, O_RDONLY), (2, O_RDONLY)] {
        // SAFETY: any descriptor may be asked for, and nothing is changed.
        let flags = unsafe { fcntl(stream, F_GETFL) };
        if flags == -1 || flags & O_ACCMODE == wrong {
            UNUSABLE.fetch_or(1 << stream, Relaxed);
        }
    }
}

/// Whether one of the three streams could be used for what it is for.
pub fn is_usable(stream: RawFd) -> bool {
    UNUSABLE.load(Relaxed) & 1 << stream == 0
}

/// A descriptor of the same open file, for the program's own use.
///
/// # Errors
/// Where it is closed.
pub fn duplicate(descriptor: RawFd) -> io::Result<File> {
    // SAFETY: any descriptor may be asked for.
    let copy = unsafe { dup(descriptor) };
    if copy == -1 {
        return Err(io::Error::last_os_error());
    }
    // SAFETY: the copy was made here, and nobody else has it.
    Ok(unsafe { File::from_raw_fd(copy) })
}

/// Whether a file that is open can be written.
pub fn is_writable(file: &File) -> bool {
    // SAFETY: nothing is changed.
    let flags = unsafe { fcntl(file.as_raw_fd(), F_GETFL) };
    flags != -1 && flags & O_ACCMODE != O_RDONLY
}

/// How many links are followed.
const LINKS: usize = 40;

/// The descriptor that a name stands for, itself or through links: `/dev/stdout`, `/dev/fd/3`.
pub fn descriptor(name: &Path) -> Option<RawFd> {
    let mut path = name.to_path_buf();
    for _ in 0..LINKS {
        let parts: Vec<Component<'_>> = path.components().filter(|part| *part != Component::CurDir).collect();
        let plain: PathBuf = parts.iter().collect();
        match plain.to_str() {
            Some("/dev/stdin") => return Some(0),
            Some("/dev/stdout") => return Some(1),
            Some("/dev/stderr") => return Some(2),
            _ => {}
        }
        let own = format!("/proc/{}/fd", process::id());
        let folder = plain.parent().and_then(Path::to_str);
        if folder.map_or(false, |folder| ["/dev/fd", "/proc/self/fd", &own].contains(&folder)) {
            return plain.file_name()?.to_str()?.parse().ok();
        }
        let leads_to = std::fs::read_link(&plain).ok()?;
        path = plain.parent().unwrap_or_else(|| Path::new("/")).join(leads_to);
    }
    None
}

/// What tells a plain file from all others: its device and its number there.
pub fn identity(file: &Path) -> Option<(u64, u64)> {
    of(&std::fs::metadata(file).ok()?)
}

/// The same of standard input.
pub fn identity_of_input() -> Option<(u64, u64)> {
    of(&duplicate(0).ok()?.metadata().ok()?)
}

fn of(found: &std::fs::Metadata) -> Option<(u64, u64)> {
    found.is_file().then(|| (found.dev(), found.ino()))
}
