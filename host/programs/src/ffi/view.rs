//! The audit with a list for a viewer.

use super::{c, lent};

/// A record of the list, as the C interface has it.
#[repr(C)]
#[derive(Clone, Copy, Debug, Default, PartialEq, Eq)]
pub struct Row {
    pub start: u64,
    pub size: u64,
    pub part: u64,
    pub owner: u64,
}

/// The tables are start, part and owner.
pub fn view(file: &[u8], tables: [&mut [u64]; 3], list: &mut [Row], place: &mut u64, count: &mut u64) -> u64 {
    let [(start, starts), (part, parts), (owner, owners)] = lent(tables);
    let (first, rows) = (list.as_mut_ptr(), list.len());
    let (file, len) = (file.as_ptr(), file.len());
    // SAFETY: each pointer goes with its slice's length, and what is lent as `&mut` overlaps nothing.
    unsafe { c::rootmap_view(file, len, start, starts, part, parts, owner, owners, first, rows, place, count) }
}
