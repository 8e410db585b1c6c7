//! The rule of strings, said apart from the generator.

/// A string as it is stored.
pub fn stored(string: &[u8]) -> Vec<u8> {
    match string.len() {
        len @ 0..=254 => [&[len as u8], string].concat(),
        len => [&[255, (len >> 24) as u8, (len >> 16) as u8, (len >> 8) as u8, len as u8], string].concat(),
    }
}
