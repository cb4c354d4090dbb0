//! The file of a shared graph: a header with the lock, then the words of the five tables one after another.

use std::{
    fs::{self, File, OpenOptions},
    io::{self, Write},
    mem::size_of,
    path::{Path, PathBuf},
    process, slice,
    sync::atomic::{AtomicU32, Ordering},
};

use super::{mapping::Mapping, mutex::Mutex, SharedError};
use crate::{
    graph::{lay_out, words_needed},
    raw::{Sizes, Tables},
};

/// Where the words start.
const HEADER_BYTES: usize = 256;

/// What the file starts with; another layout would have another number in it.
const MAGIC: [u8; 16] = *b"taskgraph file 4";

#[repr(C)]
pub struct Header {
    magic: [u8; 16],
    sizes: Sizes,
    /// What the holder of the lock is at: one of the values below.
    pub state: AtomicU32,
    pub mutex: Mutex,
}

/// The words are those that whole calls left.
pub const WHOLE: u32 = 0;
/// The holder of the lock has begun a call.
pub const WRITING: u32 = 1;
/// A process died inside a call.
pub const TORN: u32 = 2;

const _: () = assert!(size_of::<Header>() <= HEADER_BYTES);

/// A mapped file.
pub struct SharedFile {
    mapping: Mapping,
    sizes: Sizes,
    need: [usize; 5],
}

fn bytes(need: [usize; 5]) -> usize {
    HEADER_BYTES + size_of::<u32>() * need.iter().sum::<usize>()
}

impl SharedFile {
    /// Makes the file of a fresh graph. It gets its name only when it is whole.
    pub fn create(path: &Path, sizes: Sizes) -> Result<SharedFile, SharedError> {
        let need = words_needed(sizes)?;
        let unnamed = Unnamed::new(path)?;
        // Written, so that a full disk is met here, as an error.
        (&unnamed.file).write_all(&vec![0; bytes(need)])?;
        let mapping = Mapping::new(&unnamed.file, bytes(need))?;
        let header = mapping.at(0).cast::<Header>();
        // SAFETY: the bytes are mapped, start a page, and nobody else knows the file.
        unsafe {
            (*header).magic = MAGIC;
            (*header).sizes = sizes;
            (*header).state = AtomicU32::new(WHOLE);
            Mutex::init(std::ptr::addr_of_mut!((*header).mutex))?;
        }
        let shared = SharedFile { mapping, sizes, need };
        // SAFETY: nobody else knows the file.
        lay_out(sizes, &mut unsafe { shared.tables() })?;
        fs::hard_link(&unnamed.path, path)?;
        Ok(shared)
    }

    /// Maps a file that `create` made.
    pub fn open(path: &Path) -> Result<SharedFile, SharedError> {
        let file = OpenOptions::new().read(true).write(true).open(path)?;
        let len = usize::try_from(file.metadata()?.len()).map_err(|_| SharedError::Foreign)?;
        if len < HEADER_BYTES {
            return Err(SharedError::Foreign);
        }
        let mapping = Mapping::new(&file, len)?;
        // SAFETY: the bytes are mapped, and magic and sizes do not change once the file has a name.
        let (magic, sizes) = unsafe {
            let header = mapping.at(0).cast::<Header>();
            ((*header).magic, (*header).sizes)
        };
        let need = words_needed(sizes).map_err(|_| SharedError::Foreign)?;
        if magic != MAGIC || len != bytes(need) {
            return Err(SharedError::Foreign);
        }
        Ok(SharedFile { mapping, sizes, need })
    }

    pub fn sizes(&self) -> Sizes {
        self.sizes
    }

    pub fn header(&self) -> &Header {
        // SAFETY: the header is mapped, and what changes in it is atomic or libc's.
        unsafe { &*self.mapping.at(0).cast() }
    }

    pub fn state(&self) -> u32 {
        self.header().state.load(Ordering::SeqCst)
    }

    pub fn set_state(&self, state: u32) {
        self.header().state.store(state, Ordering::SeqCst);
    }

    /// Where each table starts, and its length in words.
    fn places(&self) -> [(*mut u32, usize); 5] {
        let mut byte = HEADER_BYTES;
        self.need.map(|len| {
            let start = self.mapping.at(byte).cast();
            byte += size_of::<u32>() * len;
            (start, len)
        })
    }

    /// The words of the tables.
    ///
    /// # Safety
    /// Nobody writes them, in any process, while these are used.
    pub unsafe fn words(&self) -> [&[u32]; 5] {
        self.places().map(|(start, len)| slice::from_raw_parts(start, len))
    }

    /// The tables.
    ///
    /// # Safety
    /// Nobody else uses the words, in any process, while these are used.
    pub unsafe fn tables(&self) -> Tables<'_> {
        let [jobs, arcs, buckets, queue, workers] =
            self.places().map(|(start, len)| slice::from_raw_parts_mut(start, len));
        Tables { jobs, arcs, buckets, queue, workers }
    }
}

/// A file under a name of its own beside the one that it will have.
struct Unnamed {
    file: File,
    path: PathBuf,
}

impl Unnamed {
    fn new(path: &Path) -> io::Result<Unnamed> {
        static MADE: AtomicU32 = AtomicU32::new(0);
        let mut name = path.file_name().ok_or_else(|| io::Error::from(io::ErrorKind::InvalidInput))?.to_owned();
        name.push(format!(".{}-{}", process::id(), MADE.fetch_add(1, Ordering::Relaxed)));
        let path = path.with_file_name(name);
        let file = OpenOptions::new().read(true).write(true).create(true).truncate(true).open(&path)?;
        Ok(Unnamed { file, path })
    }
}

impl Drop for Unnamed {
    fn drop(&mut self) {
        // Whatever came of it, this name is of no more use.
        let _ = fs::remove_file(&self.path);
    }
}
