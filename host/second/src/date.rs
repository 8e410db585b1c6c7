//! Packed dates. A date is year, month, day, hour, minute, second; year stands in the highest bits.

use super::{number, Answer};

/// The least value of each field.
const FIRST: [u32; 6] = [1995, 0, 0, 0, 0, 0];
/// The width of each field, 32 bits together.
const BITS: [u32; 6] = [6, 4, 5, 5, 6, 6];

pub fn pack_date(date: [u32; 6]) -> Answer {
    let mut packed = 0;
    for ((value, first), bits) in date.into_iter().zip(FIRST).zip(BITS) {
        match value.checked_sub(first) {
            Some(stored) if stored < 1 << bits => packed = packed << bits | u64::from(stored),
            _ => return Answer::refusal(number::DATE, 0),
        }
    }
    Answer::success(packed)
}

pub fn unpack_date(packed: u32) -> [u32; 6] {
    let mut rest = packed;
    let mut date = FIRST;
    for (value, bits) in date.iter_mut().zip(BITS).rev() {
        *value += rest % (1 << bits);
        rest >>= bits;
    }
    date
}
