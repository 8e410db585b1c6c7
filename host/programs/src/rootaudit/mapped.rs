//! A file as bytes, mapped into memory: an audit reads the headers of a file and not its data, so that
//! of a large file only a small part is looked at.
//!
//! The audit owes nothing for bytes that change under it. A file must not be written to while it is
//! audited; a change is seen afterwards by its stamp (`is_unchanged`), and reading past the end of a
//! file that was cut short meanwhile ends the process that reads it (`apart`, `fault`).

use super::advice::{self, Advice};
use super::stamp::Stamp;
use super::words::grouped;
use std::ffi::{c_int, c_void, OsStr};
use std::fs::{self, File, Metadata, OpenOptions};
use std::os::fd::AsRawFd;
use std::os::unix::fs::{FileExt, OpenOptionsExt};
use std::{io, ptr, slice};

pub(super) mod c {
    use super::{c_int, c_void};

    extern "C" {
        pub fn mmap(
            start: *mut c_void,
            len: usize,
            protection: c_int,
            flags: c_int,
            file: c_int,
            offset: i64,
        ) -> *mut c_void;
        pub fn munmap(start: *mut c_void, len: usize) -> c_int;
        pub fn madvise(start: *mut c_void, len: usize, advice: c_int) -> c_int;
        pub fn posix_fadvise(file: c_int, offset: i64, len: i64, advice: c_int) -> c_int;
    }
}

/// What mmap, open, madvise and posix_fadvise are asked for, on Linux.
pub(super) const PROT_READ: c_int = 1;
const MAP_PRIVATE: c_int = 2;
const O_NONBLOCK: c_int = 0o4000;
const MADV_NORMAL: c_int = 0;
const MADV_RANDOM: c_int = 1;
const POSIX_FADV_DONTNEED: c_int = 4;
/// What mmap answers when it fails.
pub(super) const MAP_FAILED: usize = usize::MAX;

/// How much `read_all` reads at once.
const CHUNK: usize = 1 << 20;

/// A regular file that is mapped as long as this value lives.
pub struct Mapped {
    file: File,
    start: *mut c_void,
    len: usize,
    stamp: Stamp,
}

impl Mapped {
    /// Maps a file, or says why it cannot.
    pub fn open(path: &OsStr) -> Result<Self, String> {
        // Before it is opened, since to open a device may do something; and again after it.
        let found = fs::metadata(path);
        if found.as_ref().is_ok_and(Metadata::is_dir) {
            let why = fs::read_dir(path).err().map(|error| format!(": {error}"));
            return Err(format!("{FOLDER}{}", why.unwrap_or_default()));
        }
        regular(found)?;
        // Should it have become a pipe, opening it does not wait.
        let file = OpenOptions::new().read(true).custom_flags(O_NONBLOCK).open(path).map_err(|e| e.to_string())?;
        let stamp = Stamp::of(&regular(file.metadata())?);
        Self::map(file, stamp).map_err(|error| error.to_string())
    }

    fn map(file: File, stamp: Stamp) -> io::Result<Self> {
        let len = usize::try_from(stamp.len).map_err(io::Error::other)?;
        let mut start = ptr::null_mut();
        // Nothing is mapped of an empty file.
        if len > 0 {
            // SAFETY: a new mapping of an open file, that nothing else refers to.
            start = unsafe { c::mmap(start, len, PROT_READ, MAP_PRIVATE, file.as_raw_fd(), 0) };
            if start as usize == MAP_FAILED {
                return Err(io::Error::last_os_error());
            }
        }
        Ok(Mapped { file, start, len, stamp })
    }

    pub fn bytes(&self) -> &[u8] {
        if self.len == 0 {
            return &[];
        }
        // SAFETY: `len` bytes are mapped from `start` on until this value is dropped, and this process does not write
        // to them. That no other process does cannot be known here: see above.
        unsafe { slice::from_raw_parts(self.start.cast(), self.len) }
    }

    /// Its stamp when it was opened.
    pub fn stamp(&self) -> Stamp {
        self.stamp
    }

    /// Whether the open file and the file that now stands at the path have the stamp that it was opened with.
    pub fn is_unchanged(&self, path: &OsStr) -> bool {
        self.file.metadata().is_ok_and(|now| Stamp::of(&now) == self.stamp) && self.stamp.is_at(path)
    }

    /// Tells the system how to fetch the file, by the sizes of its pieces. Nothing but time depends on it.
    pub fn advise(&self) {
        advice::follow(self.bytes(), |advice| {
            let advice = match advice {
                Advice::Normal => MADV_NORMAL,
                Advice::Random => MADV_RANDOM,
            };
            // SAFETY: these bytes are mapped, and neither advice changes what they hold.
            unsafe { c::madvise(self.start, self.len, advice) };
        });
    }

    /// Fetches every byte, or says where it cannot. From time to time `fetched` hears how many it has.
    pub fn read_all(&self, fetched: &dyn Fn(u64)) -> Result<(), String> {
        // The system is asked to forget what it holds in memory, so that the disk is read. It need not.
        // SAFETY: the call takes numbers alone.
        unsafe { c::posix_fadvise(self.file.as_raw_fd(), 0, 0, POSIX_FADV_DONTNEED) };
        let mut chunk = vec![0; CHUNK];
        let mut at = 0;
        while at < self.len {
            let want = CHUNK.min(self.len - at);
            self.file.read_exact_at(&mut chunk[..want], at as u64).map_err(|error| {
                format!("bytes {} to {}: {error}", grouped(at as u64), grouped((at + want - 1) as u64))
            })?;
            at += want;
            fetched(at as u64);
        }
        Ok(())
    }
}

impl Drop for Mapped {
    fn drop(&mut self) {
        if self.len > 0 {
            // SAFETY: it was mapped with this length, and no reference to it is left.
            unsafe { c::munmap(self.start, self.len) };
        }
    }
}

const FOLDER: &str = "it is a directory";

/// What is known of a regular file; a word about any other.
fn regular(found: io::Result<Metadata>) -> Result<Metadata, String> {
    let found = found.map_err(|error| error.to_string())?;
    if found.is_dir() {
        return Err(FOLDER.into());
    }
    if !found.is_file() {
        return Err("it is no regular file".into());
    }
    Ok(found)
}
