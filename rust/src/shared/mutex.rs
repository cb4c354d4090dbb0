//! A lock that processes share, and that is freed when its holder dies: libc's robust mutex. The constants are those
//! of Linux on x86-64, Arm and RISC-V.

use std::{cell::UnsafeCell, io, os::raw::c_int};

const PROCESS_SHARED: c_int = 1;
const ROBUST: c_int = 1;
const ERROR_CHECK: c_int = 2;
const OWNER_DIED: c_int = 130;

/// Room for libc's type, which takes 40 bytes on x86-64 and 48 on Arm.
#[repr(C, align(16))]
pub struct Mutex(UnsafeCell<[u8; 64]>);

/// Room for libc's type, which takes at most 8 bytes.
#[repr(C, align(8))]
struct Attributes([u8; 16]);

extern "C" {
    fn pthread_mutexattr_init(attributes: *mut Attributes) -> c_int;
    fn pthread_mutexattr_setpshared(attributes: *mut Attributes, shared: c_int) -> c_int;
    fn pthread_mutexattr_setrobust(attributes: *mut Attributes, robust: c_int) -> c_int;
    fn pthread_mutexattr_settype(attributes: *mut Attributes, kind: c_int) -> c_int;
    fn pthread_mutexattr_destroy(attributes: *mut Attributes) -> c_int;
    fn pthread_mutex_init(mutex: *mut Mutex, attributes: *const Attributes) -> c_int;
    fn pthread_mutex_lock(mutex: *mut Mutex) -> c_int;
    fn pthread_mutex_consistent(mutex: *mut Mutex) -> c_int;
    fn pthread_mutex_unlock(mutex: *mut Mutex) -> c_int;
}

fn succeeded(code: c_int) -> io::Result<()> {
    match code {
        0 => Ok(()),
        _ => Err(io::Error::from_raw_os_error(code)),
    }
}

impl Mutex {
    /// Makes a free lock.
    ///
    /// # Safety
    /// `mutex` is writable and aligned, nobody else uses it, and it stays where it is as long as anybody does.
    pub unsafe fn init(mutex: *mut Mutex) -> io::Result<()> {
        let mut attributes = Attributes([0; 16]);
        succeeded(pthread_mutexattr_init(&mut attributes))?;
        let made = succeeded(pthread_mutexattr_setpshared(&mut attributes, PROCESS_SHARED))
            .and_then(|()| succeeded(pthread_mutexattr_setrobust(&mut attributes, ROBUST)))
            // A thread that locks twice is told so, and does not wait for itself.
            .and_then(|()| succeeded(pthread_mutexattr_settype(&mut attributes, ERROR_CHECK)))
            .and_then(|()| succeeded(pthread_mutex_init(mutex, &attributes)));
        pthread_mutexattr_destroy(&mut attributes);
        made
    }

    fn pointer(&self) -> *mut Mutex {
        self as *const Mutex as *mut Mutex
    }

    /// Waits for the lock. True where the last holder died with it.
    pub fn lock(&self) -> io::Result<bool> {
        // SAFETY: the lock was made by `init`, and all its bytes are in an `UnsafeCell`.
        match unsafe { pthread_mutex_lock(self.pointer()) } {
            OWNER_DIED => {
                // SAFETY: as above; this thread has the lock.
                succeeded(unsafe { pthread_mutex_consistent(self.pointer()) })?;
                Ok(true)
            }
            code => succeeded(code).map(|()| false),
        }
    }

    /// Frees the lock.
    ///
    /// # Safety
    /// This thread has the lock.
    pub unsafe fn unlock(&self) {
        // It fails only for a thread that does not have the lock.
        pthread_mutex_unlock(self.pointer());
    }
}
