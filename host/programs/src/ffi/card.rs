//! The transfer card.

use super::{c, lent};

/// Audits a file into the tables start, part and owner, and writes its card to the front of an output.
pub fn write(file: &[u8], card: &mut [u8], tables: [&mut [u64]; 3], place: &mut u64, count: &mut u64) -> u64 {
    let [(start, starts), (part, parts), (owner, owners)] = lent(tables);
    let (out, out_len) = (card.as_mut_ptr(), card.len());
    // SAFETY: each pointer goes with its slice's length; what is lent as `&mut` overlaps nothing.
    unsafe {
        c::rootmap_card_write(
            file.as_ptr(),
            file.len(),
            out,
            out_len,
            start,
            starts,
            part,
            parts,
            owner,
            owners,
            place,
            count,
        )
    }
}

/// Reads the file of a card to the front of an output.
pub fn read(card: &[u8], out: &mut [u8], place: &mut u64, count: &mut u64) -> u64 {
    // SAFETY: each pointer goes with its slice's length; what is lent as `&mut` overlaps nothing.
    unsafe { c::rootmap_card_read(card.as_ptr(), card.len(), out.as_mut_ptr(), out.len(), place, count) }
}
