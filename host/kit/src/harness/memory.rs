//! New memory from the system, on Linux: zeros, of which only the pages that are written take room.

use std::ffi::{c_int, c_void};
use std::ptr;

extern "C" {
    fn mmap(start: *mut c_void, len: usize, protection: c_int, flags: c_int, file: c_int, offset: i64) -> *mut c_void;
    fn munmap(start: *mut c_void, len: usize) -> c_int;
    fn mprotect(start: *mut c_void, len: usize, protection: c_int) -> c_int;
    fn madvise(start: *mut c_void, len: usize, advice: c_int) -> c_int;
}

const NONE: c_int = 0;
const READ_WRITE: c_int = 1 | 2;
const PRIVATE_ANONYMOUS: c_int = 2 | 0x20;
/// More than the machine has may be asked for.
const NO_RESERVE: c_int = 0x4000;
/// A written byte takes no more than its page.
const NO_HUGE_PAGE: c_int = 15;
pub const PAGE: usize = 4096;

pub struct Memory {
    start: *mut c_void,
    len: usize,
}

impl Memory {
    /// None if there is no such memory.
    pub fn new(len: usize) -> Option<Self> {
        // SAFETY: new memory, which nobody else has.
        let start = unsafe { mmap(ptr::null_mut(), len, READ_WRITE, PRIVATE_ANONYMOUS | NO_RESERVE, -1, 0) };
        if start as usize == usize::MAX {
            return None;
        }
        // SAFETY: the same memory, of which nothing is said but how it is kept. It may be kept otherwise.
        let _ = unsafe { madvise(start, len, NO_HUGE_PAGE) };
        Some(Memory { start, len })
    }

    pub fn bytes(&mut self) -> &mut [u8] {
        // SAFETY: so many bytes, all zero at first, that only this value holds.
        unsafe { std::slice::from_raw_parts_mut(self.start.cast(), self.len) }
    }

    /// Its last page can no longer be read, and is no part of it any more.
    pub fn close_last_page(&mut self) {
        self.len -= PAGE;
        // SAFETY: the page behind what is left.
        let failed = unsafe { mprotect(self.start.byte_add(self.len), PAGE, NONE) };
        assert_eq!(failed, 0);
    }
}

impl Drop for Memory {
    fn drop(&mut self) {
        // SAFETY: mapped so; a page that was closed stays.
        unsafe { munmap(self.start, self.len) };
    }
}
