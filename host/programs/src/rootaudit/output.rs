//! Standard output, opened, written and closed with every step checked. Output that did not reach its end is
//! no success.
//!
//! Rust's own standard output is not used: at start-up a closed descriptor is replaced by the null device, and
//! writing to one that is open for reading only is taken for success.

use super::{own, FAILED};
use std::ffi::c_int;
use std::fs::File;
use std::io::{self, BufWriter, Write};
use std::os::fd::{FromRawFd, IntoRawFd};
use std::sync::atomic::{AtomicBool, Ordering};

mod c {
    use super::c_int;

    extern "C" {
        pub fn fcntl(file: c_int, command: c_int, ...) -> c_int;
        pub fn close(file: c_int) -> c_int;
    }
}

const STANDARD_OUTPUT: c_int = 1;
/// What fcntl is asked for, and where its answer says what a file was opened for, on Linux.
const F_GETFL: c_int = 3;
const O_ACCMODE: c_int = 3;
const O_WRONLY: c_int = 1;
const O_RDWR: c_int = 2;

/// Whether standard output was open for writing when the program was started.
static WRITABLE: AtomicBool = AtomicBool::new(false);

/// The system calls it before Rust's start-up.
#[used]
#[link_section = ".init_array"]
static LOOK: extern "C" fn() = look;

extern "C" fn look() {
    // SAFETY: the call asks and changes nothing.
    let flags = unsafe { c::fcntl(STANDARD_OUTPUT, F_GETFL) };
    WRITABLE.store(flags >= 0 && [O_WRONLY, O_RDWR].contains(&(flags & O_ACCMODE)), Ordering::SeqCst);
}

/// Does the work with standard output: its exit status, or 2 if the output did not reach its end.
pub fn with(program: &str, work: impl FnOnce(&mut dyn Write) -> u8) -> u8 {
    match checked(work) {
        Ok(status) => status,
        Err(error) => {
            // There is nowhere else to say it.
            let _ = writeln!(own::errors(), "{program}: output: {error}");
            FAILED
        }
    }
}

fn checked(work: impl FnOnce(&mut dyn Write) -> u8) -> io::Result<u8> {
    if !WRITABLE.load(Ordering::SeqCst) {
        return Err(io::Error::other("standard output is closed or cannot be written to, so nothing was done"));
    }
    // SAFETY: the descriptor is open, and nothing else in this program writes to it or closes it.
    let mut out = BufWriter::new(unsafe { File::from_raw_fd(STANDARD_OUTPUT) });
    let status = work(&mut out);
    let flushed = out.flush();
    // Some file systems tell of a full disk only when a file is closed.
    let closed = close(out.into_parts().0);
    // What failed before has its message.
    if status != FAILED {
        flushed.and(closed)?;
    }
    Ok(status)
}

fn close(file: File) -> io::Result<()> {
    // SAFETY: the descriptor was taken out of the file, so that it is closed once.
    match unsafe { c::close(file.into_raw_fd()) } {
        0 => Ok(()),
        _ => Err(io::Error::last_os_error()),
    }
}
