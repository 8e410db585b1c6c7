//! The audit, and that of a salvaged file.

use super::{c, lent, Answer};

/// Both are declared alike.
type Function = unsafe extern "C" fn(
    *const u8,
    usize,
    *mut u64,
    usize,
    *mut u64,
    usize,
    *mut u64,
    usize,
    *mut u64,
    *mut u64,
) -> u64;

/// The tables are start, part and owner.
pub fn audit(file: &[u8], tables: [&mut [u64]; 3], place: &mut u64, count: &mut u64) -> u64 {
    call(c::rootmap_audit, file, tables, place, count)
}

/// The same without a comparison of the free segments with the gaps.
pub fn audit_salvaged(file: &[u8], tables: [&mut [u64]; 3], place: &mut u64, count: &mut u64) -> u64 {
    call(c::rootmap_audit_salvaged, file, tables, place, count)
}

#[inline(always)]
fn call(function: Function, file: &[u8], tables: [&mut [u64]; 3], place: &mut u64, count: &mut u64) -> u64 {
    let [(start, starts), (part, parts), (owner, owners)] = lent(tables);
    // SAFETY: each pointer goes with its slice's length; what is lent as `&mut` overlaps nothing.
    unsafe { function(file.as_ptr(), file.len(), start, starts, part, parts, owner, owners, place, count) }
}

/// All that the audit answers as one value.
pub fn answer(file: &[u8], tables: [&mut [u64]; 3]) -> Answer {
    let (mut place, mut count) = (0, 0);
    let number = audit(file, tables, &mut place, &mut count);
    Answer { number, place, count }
}
