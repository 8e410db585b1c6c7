//! How many bytes an offset takes, four or eight: the version of what it stands in tells it.

/// The greatest version of a key, a directory header or a free segment with four-byte offsets, and of any.
pub const MOST_NARROW: u32 = 1000;
pub const MOST: u32 = 2000;
/// The least version of a file header with eight-byte offsets.
pub const LEAST_WIDE_FILE: u32 = 1_000_000;

/// In a key, a directory header or a free segment.
pub fn of(version: u32) -> usize {
    bytes(version > MOST_NARROW)
}

/// In a file header.
pub fn of_file(version: u32) -> usize {
    bytes(version >= LEAST_WIDE_FILE)
}

fn bytes(is_wide: bool) -> usize {
    if is_wide {
        8
    } else {
        4
    }
}
