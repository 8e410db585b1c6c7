//! Files of which only some stretches are written: the holes between them take no room on the disk.

use super::folder::tmp;
use crate::gen::fields::{low_bytes, Field};
use std::fs::{self, File};
use std::os::unix::fs::{FileExt, MetadataExt};
use std::path::PathBuf;

/// More blocks than the stretches of a test take.
const MOST_BLOCKS: u64 = 10_000;

/// It is removed at the end.
pub struct Sparse {
    pub path: PathBuf,
    file: File,
}

impl Sparse {
    /// A file of `len` bytes with these stretches. None, and a word about it, if the disk has no such files.
    pub fn new(name: &str, len: usize, stretches: impl IntoIterator<Item = (usize, Vec<u8>)>) -> Option<Self> {
        let path = tmp().join(name);
        let file = File::create(&path).unwrap();
        let sparse = Sparse { path, file };
        if let Err(error) = sparse.file.set_len(len as u64) {
            println!("skipped: no file of {len} bytes: {error}");
            return None;
        }
        for (at, bytes) in stretches {
            sparse.write(at, &bytes);
        }
        if sparse.file.metadata().unwrap().blocks() > MOST_BLOCKS {
            println!("skipped: the disk has no sparse files");
            return None;
        }
        Some(sparse)
    }

    pub fn write(&self, at: usize, bytes: &[u8]) {
        self.file.write_all_at(bytes, at as u64).unwrap();
    }

    pub fn put(&self, field: Field, number: u64) {
        self.write(field.at, &low_bytes(number, field.width));
    }
}

impl Drop for Sparse {
    fn drop(&mut self) {
        // Nothing is to be done if it is gone.
        let _ = fs::remove_file(&self.path);
    }
}
