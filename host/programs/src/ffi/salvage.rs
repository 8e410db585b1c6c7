//! Salvage.

use super::c;

/// `seen` is a scratch of any length, best a bit for each byte of the buffer: a shorter one costs time alone.
pub fn salvage(buf: &mut [u8], seen: &mut [u8], place: &mut u64, count: &mut u64) -> u64 {
    // SAFETY: each pointer goes with its slice's length; what is lent as `&mut` overlaps nothing.
    unsafe { c::rootmap_salvage(buf.as_mut_ptr(), buf.len(), seen.as_mut_ptr(), seen.len(), place, count) }
}
