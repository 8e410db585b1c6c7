//! The version of the interface.

use super::c;

/// That of the header that `ffi` is written from.
pub const HEADER: u64 = 8;

/// That of the library that is linked.
pub fn library() -> u64 {
    // SAFETY: nothing is lent.
    unsafe { c::rootmap_version() }
}
