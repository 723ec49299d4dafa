//! A file's words in memory.

use std::ffi::{c_int, c_void};
use std::fs::File;
use std::io;
use std::os::fd::AsRawFd;
use std::ptr::{null_mut, NonNull};
use std::slice;

// The same on every Unix.
const PROT_READ: c_int = 1;
const PROT_WRITE: c_int = 2;
const MAP_SHARED: c_int = 1;

unsafe extern "C" {
    /// The offset is 64 bits wide where pointers are; this module is for such machines alone.
    fn mmap(
        at: *mut c_void,
        bytes: usize,
        protection: c_int,
        flags: c_int,
        file: c_int,
        offset: i64,
    ) -> *mut c_void;
    fn munmap(at: *mut c_void, bytes: usize) -> c_int;
}

/// The first words of a file, shared with it: a store is one to the file's own memory, and stands if the process is
/// killed right after it. `Board` lends none of them to its callers.
#[derive(Debug)]
pub struct Mapping {
    words: NonNull<u64>,
    len: usize,
}

// SAFETY: the mapping belongs to this value alone, as a boxed slice would; to read takes a `&`, to write a `&mut`.
unsafe impl Send for Mapping {}
// SAFETY: as above.
unsafe impl Sync for Mapping {}

impl Mapping {
    /// Maps `len` words of a file.
    ///
    /// # Safety
    ///
    /// The file has so many words, and up to the mapping's drop nothing but the mapping writes to it, and nothing
    /// shortens it.
    pub unsafe fn of(file: &File, len: usize) -> io::Result<Mapping> {
        let (bytes, access) = (8 * len, PROT_READ | PROT_WRITE);
        // SAFETY: a new mapping, at an address that the system chooses, touches nothing that there is.
        let at = unsafe { mmap(null_mut(), bytes, access, MAP_SHARED, file.as_raw_fd(), 0) };
        match NonNull::new(at.cast()) {
            Some(words) if at.addr() != usize::MAX => Ok(Mapping { words, len }),
            _ => Err(io::Error::last_os_error()),
        }
    }

    pub fn words(&self) -> &[u64] {
        // SAFETY: `len` words are mapped here until the drop, aligned to a page; any bytes are words. Nobody else writes
        // or shortens them: that was promised to `of`.
        unsafe { slice::from_raw_parts(self.words.as_ptr(), self.len) }
    }

    pub fn words_mut(&mut self) -> &mut [u64] {
        // SAFETY: as above, and `&mut self` keeps other readers of this process away.
        unsafe { slice::from_raw_parts_mut(self.words.as_ptr(), self.len) }
    }
}

impl Drop for Mapping {
    fn drop(&mut self) {
        // SAFETY: what was mapped, and nothing borrows from it any more. It can fail only on another address.
        unsafe { munmap(self.words.as_ptr().cast(), 8 * self.len) };
    }
}
