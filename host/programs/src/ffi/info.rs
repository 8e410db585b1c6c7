//! The StreamerInfo reader.

use super::c;

pub fn read_info(file: &[u8], at: u64, table: &mut [u32], place: &mut u64, count: &mut u64) -> u64 {
    // SAFETY: each pointer goes with its slice's length; what is lent as `&mut` overlaps nothing.
    unsafe { c::rootmap_info(file.as_ptr(), file.len(), at, table.as_mut_ptr(), table.len(), place, count) }
}
