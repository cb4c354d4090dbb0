//! A file that several processes map, through libc's `mmap`.

use std::{
    ffi::c_void,
    fs::File,
    io,
    os::{raw::c_int, unix::io::AsRawFd},
    ptr,
};

const READ_AND_WRITE: c_int = 1 | 2;
const SHARED: c_int = 1;

extern "C" {
    fn mmap(address: *mut c_void, len: usize, access: c_int, flags: c_int, file: c_int, offset: i64) -> *mut c_void;
    fn munmap(address: *mut c_void, len: usize) -> c_int;
}

/// The first bytes of a file, mapped as long as this value lives.
pub struct Mapping {
    address: *mut c_void,
    len: usize,
}

impl Mapping {
    /// Maps `len` bytes, which the file has.
    pub fn new(file: &File, len: usize) -> io::Result<Mapping> {
        // SAFETY: the system chooses an address that nothing else has.
        let address = unsafe { mmap(ptr::null_mut(), len, READ_AND_WRITE, SHARED, file.as_raw_fd(), 0) };
        if address as isize == -1 {
            return Err(io::Error::last_os_error());
        }
        Ok(Mapping { address, len })
    }

    /// The address of a byte, which is at the start of a page for byte 0.
    pub fn at(&self, byte: usize) -> *mut c_void {
        assert!(byte <= self.len, "byte {byte} of {} that are mapped", self.len);
        self.address.cast::<u8>().wrapping_add(byte).cast()
    }
}

impl Drop for Mapping {
    fn drop(&mut self) {
        // SAFETY: it was mapped, and whatever points into it borrows this value.
        unsafe { munmap(self.address, self.len) };
    }
}
