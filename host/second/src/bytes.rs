//! Big-endian numbers and counted strings, read one after another.

use std::ops::Range;

/// The first length byte of a string of as many bytes or more: its length follows in four bytes.
const LONG: u8 = 255;

/// What a string of so many bytes takes, with those of its length. Past the greatest number it is that number.
pub fn stored(len: usize) -> usize {
    len.saturating_add(if len < LONG.into() { 1 } else { 5 })
}

/// The bytes of a string's length, which stand before it.
pub fn length_bytes(len: u32) -> Vec<u8> {
    match u8::try_from(len) {
        Ok(byte) if byte != LONG => vec![byte],
        _ => [&[LONG][..], &len.to_be_bytes()].concat(),
    }
}

/// Reads forward from an offset of `bytes`, and never past their end.
pub struct Cursor<'a> {
    bytes: &'a [u8],
    at: usize,
}

impl<'a> Cursor<'a> {
    pub fn new(bytes: &'a [u8], at: usize) -> Self {
        Cursor { bytes, at }
    }

    /// The offset of the next byte.
    pub fn at(&self) -> usize {
        self.at
    }

    fn take(&mut self, len: usize) -> Option<&'a [u8]> {
        let taken = self.bytes.get(self.at..)?.get(..len)?;
        self.at += len;
        Some(taken)
    }

    fn array<const N: usize>(&mut self) -> Option<[u8; N]> {
        self.take(N)?.try_into().ok()
    }

    pub fn u8(&mut self) -> Option<u8> {
        self.array().map(u8::from_be_bytes)
    }

    pub fn u16(&mut self) -> Option<u16> {
        self.array().map(u16::from_be_bytes)
    }

    pub fn u32(&mut self) -> Option<u32> {
        self.array().map(u32::from_be_bytes)
    }

    /// An offset of `width` bytes, at most eight.
    pub fn offset(&mut self, width: usize) -> Option<u64> {
        Some(self.take(width)?.iter().fold(0, |number, &byte| number << 8 | u64::from(byte)))
    }

    pub fn i16(&mut self) -> Option<i16> {
        self.array().map(i16::from_be_bytes)
    }

    pub fn i32(&mut self) -> Option<i32> {
        self.array().map(i32::from_be_bytes)
    }

    /// A string, stored in the form that its length has: the range of its bytes.
    pub fn string(&mut self) -> Option<Range<usize>> {
        let len = match self.u8()? {
            LONG => self.u32().filter(|&len| len >= LONG.into())?,
            len => len.into(),
        };
        let start = self.at;
        self.take(len as usize)?;
        Some(start..self.at)
    }
}
