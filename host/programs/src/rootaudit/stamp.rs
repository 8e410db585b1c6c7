//! By what a file is known again, and by what a change of it is seen.

use std::ffi::OsStr;
use std::fs::{self, Metadata};
use std::os::unix::fs::MetadataExt;

/// How many bytes a stamp is.
pub const BYTES: usize = 7 * 8;

/// Which file it is, its length, and when its content and its entry in the file system were last changed. The
/// last is set by the system at every change, and no program can set it back.
#[derive(Clone, Copy, Debug, PartialEq, Eq)]
pub struct Stamp {
    pub device: u64,
    pub inode: u64,
    pub len: u64,
    content: (i64, i64),
    entry: (i64, i64),
}

impl Stamp {
    pub fn of(file: &Metadata) -> Self {
        Stamp {
            device: file.dev(),
            inode: file.ino(),
            len: file.len(),
            content: (file.mtime(), file.mtime_nsec()),
            entry: (file.ctime(), file.ctime_nsec()),
        }
    }

    /// When the content was last changed: seconds since 1970, and nanoseconds.
    pub fn modified(&self) -> (i64, i64) {
        self.content
    }

    /// When the entry in the file system was.
    pub fn changed(&self) -> (i64, i64) {
        self.entry
    }

    /// The same as bytes, for another process.
    pub fn to_bytes(self) -> [u8; BYTES] {
        let numbers = [self.content.0, self.content.1, self.entry.0, self.entry.1].map(|number| number as u64);
        let numbers = [&[self.device, self.inode, self.len], &numbers[..]].concat();
        let mut bytes = [0; BYTES];
        for (bytes, number) in bytes.chunks_exact_mut(8).zip(numbers) {
            bytes.copy_from_slice(&number.to_le_bytes());
        }
        bytes
    }

    pub fn from_bytes(bytes: [u8; BYTES]) -> Self {
        let number = |nth: usize| u64::from_le_bytes(std::array::from_fn(|byte| bytes[8 * nth + byte]));
        let time = |nth: usize| (number(nth) as i64, number(nth + 1) as i64);
        Stamp { device: number(0), inode: number(1), len: number(2), content: time(3), entry: time(5) }
    }

    /// Whether the file that now stands at a path has this stamp.
    pub fn is_at(&self, path: &OsStr) -> bool {
        fs::metadata(path).is_ok_and(|now| Stamp::of(&now) == *self)
    }
}
