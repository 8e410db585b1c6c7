//! A new file that appears under its name whole or not at all, and never in the place of another.

use std::ffi::{c_char, c_int, c_uint, CString, OsStr};
use std::fs::{self, File, OpenOptions};
use std::io::{self, ErrorKind, Write};
use std::os::fd::AsRawFd;
use std::os::unix::ffi::OsStrExt;
use std::os::unix::fs::OpenOptionsExt;
use std::path::{Path, PathBuf};
use std::process;

mod c {
    use super::{c_char, c_int, c_uint};

    extern "C" {
        pub fn access(path: *const c_char, mode: c_int) -> c_int;
        pub fn linkat(
            folder: c_int,
            path: *const c_char,
            new_folder: c_int,
            new_path: *const c_char,
            flags: c_int,
        ) -> c_int;
        pub fn renameat2(
            folder: c_int,
            path: *const c_char,
            new_folder: c_int,
            new_path: *const c_char,
            flags: c_uint,
        ) -> c_int;
    }
}

/// What open, access, linkat and renameat2 are asked for, on Linux.
const O_TMPFILE: c_int = 0o20200000;
const W_OK: c_int = 2;
const AT_FDCWD: c_int = -100;
const AT_SYMLINK_FOLLOW: c_int = 0x400;
const RENAME_NOREPLACE: c_uint = 1;

/// What errors are called there.
const EEXIST: c_int = 17;
const EISDIR: c_int = 21;

/// Says early why it could not be written later: it is there already, or its folder is not or takes no files.
pub fn check(path: &OsStr) -> io::Result<()> {
    if path.as_bytes().ends_with(b"/") {
        return Err(io::Error::from_raw_os_error(EISDIR));
    }
    match fs::symlink_metadata(path) {
        Err(error) if error.kind() == ErrorKind::NotFound => (),
        Err(error) => return Err(error),
        Ok(_) => return Err(io::Error::from_raw_os_error(EEXIST)),
    }
    let folder = c_path(folder_of(path))?;
    // SAFETY: the string ends with a zero.
    answered(unsafe { c::access(folder.as_ptr(), W_OK) })
}

/// Writes it without a name, or under another one where the file system has no such files, to the disk, and gives it
/// its own name.
pub fn write(path: &OsStr, bytes: &[u8]) -> io::Result<()> {
    let folder = folder_of(path);
    match OpenOptions::new().write(true).custom_flags(O_TMPFILE).open(folder) {
        Ok(mut file) => {
            put(&mut file, bytes)?;
            link(&file, Path::new(path))?;
        }
        Err(_) => {
            let (mut file, other) = other_name(folder)?;
            put(&mut file, bytes)?;
            give_name(&other.0, Path::new(path))?;
        }
    }
    match File::open(folder)?.sync_all() {
        // Some file systems do not have it for folders.
        Err(error) if error.kind() == ErrorKind::InvalidInput => Ok(()),
        done => done,
    }
}

fn put(file: &mut File, bytes: &[u8]) -> io::Result<()> {
    file.write_all(bytes)?;
    file.sync_all()
}

/// Gives a name to a file that has none.
fn link(file: &File, path: &Path) -> io::Result<()> {
    let other = CString::new(format!("/proc/self/fd/{}", file.as_raw_fd()))?;
    let path = c_path(path)?;
    // SAFETY: the strings end with a zero.
    answered(unsafe { c::linkat(AT_FDCWD, other.as_ptr(), AT_FDCWD, path.as_ptr(), AT_SYMLINK_FOLLOW) })
}

fn folder_of(path: &OsStr) -> &Path {
    let folder = Path::new(path).parent().unwrap_or(Path::new(""));
    if folder.as_os_str().is_empty() {
        Path::new(".")
    } else {
        folder
    }
}

fn c_path(path: &Path) -> io::Result<CString> {
    Ok(CString::new(path.as_os_str().as_bytes())?)
}

fn answered(answer: c_int) -> io::Result<()> {
    match answer {
        0 => Ok(()),
        _ => Err(io::Error::last_os_error()),
    }
}

/// A name that is removed at the end, if it is still there.
struct Passing(PathBuf);

impl Drop for Passing {
    fn drop(&mut self) {
        let _ = fs::remove_file(&self.0);
    }
}

/// How many names are tried.
const NAMES: u32 = 100;

/// A new file in a folder.
fn other_name(folder: &Path) -> io::Result<(File, Passing)> {
    for nth in 0..NAMES {
        let path = folder.join(format!(".rootaudit-{}-{nth}.part", process::id()));
        match OpenOptions::new().write(true).create_new(true).open(&path) {
            Err(error) if error.kind() == ErrorKind::AlreadyExists => (),
            made => return made.map(|file| (file, Passing(path))),
        }
    }
    Err(io::Error::from_raw_os_error(EEXIST))
}

/// Not by a plain rename, which would replace a file of that name.
fn give_name(other: &Path, path: &Path) -> io::Result<()> {
    match fs::hard_link(other, path) {
        // Some file systems have one name for a file.
        Err(error) if [ErrorKind::PermissionDenied, ErrorKind::Unsupported].contains(&error.kind()) => {
            let [other, path] = [c_path(other)?, c_path(path)?];
            // SAFETY: the strings end with a zero.
            answered(unsafe { c::renameat2(AT_FDCWD, other.as_ptr(), AT_FDCWD, path.as_ptr(), RENAME_NOREPLACE) })
        }
        done => done,
    }
}
