//! The end of a process whose mapped file can no longer be read: it was cut short meanwhile, or its
//! disk failed. The system then sends a signal. `rootaudit` audits in processes of their own (`apart`); another
//! command says so at the signal and stops.

use super::process::{self, SIGBUS};
use std::ffi::{c_int, c_void};
use std::ptr;
use std::sync::atomic::{AtomicPtr, AtomicUsize, Ordering};

mod c {
    use super::{c_int, c_void};

    extern "C" {
        pub fn write(file: c_int, bytes: *const c_void, len: usize) -> isize;
    }
}

/// Standard output may be full, or kept in a file that nobody looks at: standard error has it too.
const OUTPUTS: [c_int; 2] = [1, 2];

/// What is said of the file where others are still audited.
pub const CUT: &str = "could not be read: it was cut short while it was audited, or its disk failed";

/// What is said of the file where a command stops that lists, and does not audit.
pub const STOPPED: &str =
    "could not be read: it was cut short while it was listed, or its disk failed; files after it were not listed";

/// What the handler writes, for the handler alone.
static TEXT: AtomicPtr<u8> = AtomicPtr::new(ptr::null_mut());
static LEN: AtomicUsize = AtomicUsize::new(0);

/// A text that is written if the signal comes while this value lives.
pub struct Expected(#[allow(dead_code)] Vec<u8>);

/// Prepares for the signal.
pub fn expect(text: Vec<u8>) -> Expected {
    // No text has the length of another.
    LEN.store(0, Ordering::SeqCst);
    TEXT.store(text.as_ptr().cast_mut(), Ordering::SeqCst);
    LEN.store(text.len(), Ordering::SeqCst);
    // The handler reads two atomics and makes calls that a handler may make.
    process::handle(SIGBUS, handle);
    Expected(text)
}

impl Drop for Expected {
    fn drop(&mut self) {
        LEN.store(0, Ordering::SeqCst);
    }
}

extern "C" fn handle(_: c_int) {
    let (text, len) = (TEXT.load(Ordering::SeqCst), LEN.load(Ordering::SeqCst));
    // SAFETY: the text lives as long as its length is not 0, and it is not written to.
    unsafe {
        for output in OUTPUTS {
            c::write(output, text.cast(), len);
        }
    }
    process::end(super::FAILED.into())
}
