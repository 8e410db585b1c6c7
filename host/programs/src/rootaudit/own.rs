//! Whether standard output or standard error is one of the files that are named: to write there would damage it.

use super::stamp::Stamp;
use super::words;
use std::ffi::{c_int, OsString};
use std::fs::{self, File, Metadata};
use std::io::{self, Read, Write};
use std::mem::ManuallyDrop;
use std::os::fd::FromRawFd;

const OUTPUT: c_int = 1;
const ERRORS: c_int = 2;

/// What stands in the way.
#[derive(Debug, PartialEq, Eq)]
pub enum Obstacle {
    /// Standard output is a file that is named.
    Output(String),
    /// Standard error is one: there is nowhere to say it.
    Errors,
}

pub fn check(files: &[OsString]) -> Result<(), Obstacle> {
    if first_in(ERRORS, files).is_some() {
        return Err(Obstacle::Errors);
    }
    match first_in(OUTPUT, files) {
        None => Ok(()),
        Some(file) => Err(Obstacle::Output(format!(
            "standard output is {}, which is one of the files, so nothing was done",
            words::name(file)
        ))),
    }
}

/// The first of the files that a descriptor writes to.
fn first_in(descriptor: c_int, files: &[OsString]) -> Option<&OsString> {
    let which = |file: Metadata| file.is_file().then(|| Stamp::of(&file)).map(|stamp| (stamp.device, stamp.inode));
    // SAFETY: the descriptor is not closed here; if it is not open, the question fails.
    let output = ManuallyDrop::new(unsafe { File::from_raw_fd(descriptor) });
    let output = which(output.metadata().ok()?)?;
    files.iter().find(|file| fs::metadata(file).ok().and_then(which) == Some(output))
}

/// Standard error; but where that is a ROOT file nothing is written there: what is wrong may be said before it is known
/// which files a folder or a list names.
pub fn errors() -> Box<dyn Write> {
    if is_root_file(ERRORS) {
        Box::new(io::sink())
    } else {
        Box::new(io::stderr())
    }
}

/// Whether a descriptor writes to a file that begins as a ROOT file does.
fn is_root_file(descriptor: c_int) -> bool {
    // The descriptor itself may be open for writing alone.
    let path = format!("/proc/self/fd/{descriptor}");
    let mut start = [0; 4];
    fs::metadata(&path).is_ok_and(|found| found.is_file())
        && File::open(path).and_then(|mut file| file.read_exact(&mut start)).is_ok()
        && start == *b"root"
}
