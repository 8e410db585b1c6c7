//! Strings as they are stored, and lengths for random ones.

use super::Rng;

/// The least length of a string in the long form.
const LEAST_LONG: usize = 255;

/// The bytes of a length in its own form.
pub fn length_size(len: usize) -> usize {
    if len < LEAST_LONG {
        1
    } else {
        5
    }
}

/// A string with its length before it, in the form of that length.
pub fn counted(string: &[u8]) -> Vec<u8> {
    if string.len() < LEAST_LONG {
        plain_form(string)
    } else {
        long_form(string.len() as u32, string)
    }
}

/// A string of at most 255 bytes, its length in one byte.
pub fn plain_form(string: &[u8]) -> Vec<u8> {
    [&[u8::try_from(string.len()).unwrap()], string].concat()
}

/// The long form of a length, right or not, before a string: the byte 255 and four bytes.
pub fn long_form(len: u32, string: &[u8]) -> Vec<u8> {
    [&[255], &len.to_be_bytes()[..], string].concat()
}

/// Lengths to claim in the long form before a string of so many bytes, right and wrong.
pub fn claims(len: u32) -> Vec<u32> {
    let near = [len - 1, len, len + 1, len + 2, len + 3, len + 30];
    let low_halves = [1 << 16, 1 << 31].map(|high| high + len);
    let far = [32_767, 65_535, 65_536, 65_791, (1 << 31) - 1, 1 << 31, u32::MAX - 256, u32::MAX - 4, u32::MAX];
    [0, 1, 2, 127, 253, 254, 255, 256].into_iter().chain(near).chain(low_halves).chain(far).collect()
}

/// Mostly short, now and then up to the longest that one byte counts.
pub fn short_length(rng: &mut Rng) -> usize {
    match rng.below(16) {
        0 => 0,
        1 => rng.pick(&[1, 253, 254]),
        2 => rng.below(LEAST_LONG),
        _ => rng.below(12),
    }
}

/// The length of a string in the long form, mostly near the least.
fn long_length(rng: &mut Rng) -> usize {
    LEAST_LONG + if rng.once_in(8) { rng.below(700) } else { rng.below(6) }
}

/// The length of an option that one byte counts, 255 too.
pub fn plain_length(rng: &mut Rng) -> usize {
    if rng.once_in(8) {
        LEAST_LONG
    } else {
        short_length(rng)
    }
}

/// Either, the long ones rarely.
pub fn any_length(rng: &mut Rng) -> usize {
    if rng.once_in(30) {
        long_length(rng)
    } else {
        short_length(rng)
    }
}

/// Gives some of these strings, one in `n`, random bytes in the long form.
pub fn lengthen<'a>(rng: &mut Rng, n: usize, strings: impl Iterator<Item = &'a mut Vec<u8>>) {
    for string in strings {
        if rng.once_in(n) {
            let len = long_length(rng);
            *string = rng.bytes(len);
        }
    }
}
