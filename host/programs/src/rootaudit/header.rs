//! Where the header of a file says that its records begin and end. Numbers have their highest byte first.

use super::pieces::BEGIN;

/// Where Version, BEGIN and END stand.
const VERSION_AT: usize = 4;
const BEGIN_AT: usize = 8;
const END_AT: usize = 12;

/// The least Version of a file with eight-byte offsets.
const LEAST_WIDE: u64 = 1_000_000;

#[derive(Clone, Copy, Debug, PartialEq, Eq)]
pub struct Header {
    pub begin: u64,
    pub end: u64,
}

impl Header {
    /// None of a file that is too short to have END.
    pub fn of(file: &[u8]) -> Option<Self> {
        let width = if number(file, VERSION_AT, 4)? < LEAST_WIDE { 4 } else { 8 };
        Some(Header { begin: number(file, BEGIN_AT, 4)?, end: number(file, END_AT, width)? })
    }
}

/// The number in so many bytes from a place on.
fn number(file: &[u8], at: usize, width: usize) -> Option<u64> {
    let bytes = file.get(at..at + width)?;
    Some(bytes.iter().fold(0, |number, &byte| number << 8 | u64::from(byte)))
}

/// END of the header, in as many bytes as its Version says.
pub fn end_of(file: &[u8]) -> Option<u64> {
    Header::of(file).map(|header| header.end)
}

/// The file up to END, where END is not before the first record and not past the last byte; else all of it.
pub fn up_to_end(file: &[u8]) -> &[u8] {
    let end = end_of(file).filter(|&end| end >= BEGIN).and_then(|end| usize::try_from(end).ok());
    end.and_then(|end| file.get(..end)).unwrap_or(file)
}

/// The first END bytes of a file that is longer, and whose records begin where they should.
pub fn first_end(file: &[u8]) -> Option<&[u8]> {
    let begins = Header::of(file).is_some_and(|header| header.begin == BEGIN);
    Some(up_to_end(file)).filter(|first| begins && first.len() < file.len())
}
