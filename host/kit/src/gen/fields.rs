//! Where the numbers of a file stand, over the width of what they stand in: four or eight bytes to an offset.

/// Where a number stands, and how many bytes it has.
#[derive(Clone, Copy, Debug, PartialEq, Eq)]
pub struct Field {
    pub at: usize,
    pub width: usize,
}

impl Field {
    fn new(at: usize, width: usize) -> Self {
        Field { at, width }
    }

    /// The greatest number that it holds.
    pub fn most(self) -> u64 {
        u64::MAX >> (64 - 8 * self.width)
    }

    /// The number, or 0 if the bytes end before it does.
    pub fn get(self, bytes: &[u8]) -> u64 {
        let stored = bytes.get(self.at..self.at + self.width).unwrap_or_default();
        stored.iter().fold(0, |number, &byte| number << 8 | u64::from(byte))
    }

    /// Puts as much of a number there as fits. Bytes that end before the field does are left alone.
    pub fn put(self, bytes: &mut [u8], number: u64) {
        if let Some(stored) = bytes.get_mut(self.at..self.at + self.width) {
            stored.copy_from_slice(&low_bytes(number, self.width));
        }
    }

    /// Adds to the number there, and keeps as much as fits.
    pub fn add(self, bytes: &mut [u8], number: i64) {
        self.put(bytes, self.get(bytes).wrapping_add_signed(number));
    }
}

/// The lowest `width` bytes of a number.
pub fn low_bytes(number: u64, width: usize) -> Vec<u8> {
    number.to_be_bytes()[8 - width..].to_vec()
}

/// The file header.
#[derive(Clone, Copy, Debug)]
pub struct HeaderAt {
    pub width: usize,
}

impl HeaderAt {
    pub const VERSION: Field = Field { at: 4, width: 4 };
    pub const BEGIN: Field = Field { at: 8, width: 4 };

    pub fn end(self) -> Field {
        Field::new(12, self.width)
    }

    pub fn seek_free(self) -> Field {
        Field::new(12 + self.width, self.width)
    }

    pub fn nbytes_free(self) -> Field {
        Field::new(12 + 2 * self.width, 4)
    }

    pub fn nfree(self) -> Field {
        Field::new(16 + 2 * self.width, 4)
    }

    pub fn nbytes_name(self) -> Field {
        Field::new(20 + 2 * self.width, 4)
    }

    pub fn units(self) -> Field {
        Field::new(24 + 2 * self.width, 1)
    }

    pub fn compress(self) -> Field {
        Field::new(25 + 2 * self.width, 4)
    }

    pub fn seek_info(self) -> Field {
        Field::new(29 + 2 * self.width, self.width)
    }

    pub fn nbytes_info(self) -> Field {
        Field::new(29 + 3 * self.width, 4)
    }

    /// The first byte that is not read.
    pub fn rest(self) -> usize {
        33 + 3 * self.width
    }
}

/// A key header, in its record or copied.
#[derive(Clone, Copy, Debug)]
pub struct KeyAt {
    pub at: usize,
    pub width: usize,
}

impl KeyAt {
    pub fn nbytes(self) -> Field {
        Field::new(self.at, 4)
    }

    pub fn version(self) -> Field {
        Field::new(self.at + 4, 2)
    }

    pub fn objlen(self) -> Field {
        Field::new(self.at + 6, 4)
    }

    pub fn datime(self) -> Field {
        Field::new(self.at + 10, 4)
    }

    pub fn keylen(self) -> Field {
        Field::new(self.at + 14, 2)
    }

    pub fn cycle(self) -> Field {
        Field::new(self.at + 16, 2)
    }

    pub fn seek_key(self) -> Field {
        Field::new(self.at + 18, self.width)
    }

    pub fn seek_pdir(self) -> Field {
        Field::new(self.at + 18 + self.width, self.width)
    }

    /// The first length byte of the class.
    pub fn class(self) -> Field {
        Field::new(self.at + 18 + 2 * self.width, 1)
    }
}

/// A directory header.
#[derive(Clone, Copy, Debug)]
pub struct DirectoryAt {
    pub at: usize,
    pub width: usize,
}

impl DirectoryAt {
    pub fn version(self) -> Field {
        Field::new(self.at, 2)
    }

    pub fn nbytes_keys(self) -> Field {
        Field::new(self.at + 10, 4)
    }

    pub fn nbytes_name(self) -> Field {
        Field::new(self.at + 14, 4)
    }

    pub fn seek_dir(self) -> Field {
        Field::new(self.at + 18, self.width)
    }

    pub fn seek_parent(self) -> Field {
        Field::new(self.at + 18 + self.width, self.width)
    }

    pub fn seek_keys(self) -> Field {
        Field::new(self.at + 18 + 2 * self.width, self.width)
    }

    /// All its bytes.
    pub fn size(self) -> usize {
        18 + 3 * self.width
    }
}

/// A free segment.
#[derive(Clone, Copy, Debug)]
pub struct SegmentAt {
    pub at: usize,
    pub width: usize,
}

impl SegmentAt {
    pub fn version(self) -> Field {
        Field::new(self.at, 2)
    }

    pub fn first(self) -> Field {
        Field::new(self.at + 2, self.width)
    }

    pub fn last(self) -> Field {
        Field::new(self.at + 2 + self.width, self.width)
    }

    /// All its bytes.
    pub fn size(self) -> usize {
        2 + 2 * self.width
    }
}
