//! Processes, pipes and signals, as Linux has them.

use std::ffi::{c_int, c_ulong};
use std::fs::File;
use std::io;
use std::os::fd::{AsRawFd, FromRawFd};
use std::os::unix::process::parent_id;
use std::panic::{catch_unwind, AssertUnwindSafe};
use std::process;
use std::time::Duration;

mod c {
    use super::{c_int, c_ulong, Limit, Polled};

    extern "C" {
        pub fn fork() -> c_int;
        pub fn waitpid(process: c_int, status: *mut c_int, options: c_int) -> c_int;
        pub fn kill(process: c_int, signal: c_int) -> c_int;
        pub fn prctl(option: c_int, ...) -> c_int;
        pub fn pipe2(files: *mut c_int, flags: c_int) -> c_int;
        pub fn poll(files: *mut Polled, len: c_ulong, milliseconds: c_int) -> c_int;
        pub fn dup2(from: c_int, to: c_int) -> c_int;
        pub fn setrlimit(resource: c_int, limit: *const Limit) -> c_int;
        pub fn signal(number: c_int, handler: usize) -> usize;
        pub fn ioctl(file: c_int, request: c_ulong, ...) -> c_int;
        pub fn _exit(status: c_int) -> !;
    }
}

/// Signals, on Linux.
pub const SIGBUS: c_int = 7;
const SIGKILL: c_int = 9;
const SIGCHLD: c_int = 17;
const SIGXFSZ: c_int = 25;

/// Has a signal handled.
pub fn handle(signal: c_int, handler: extern "C" fn(c_int)) {
    // SAFETY: the handler lives as long as the program.
    unsafe { c::signal(signal, handler as usize) };
}

/// Ends this process at once, and nothing more of it is written or dropped.
pub fn end(status: c_int) -> ! {
    // SAFETY: the call takes a number.
    unsafe { c::_exit(status) }
}

/// What `signal` takes in the place of a handler.
const SIG_DFL: usize = 0;
const SIG_IGN: usize = 1;

/// A process that starts others learns how they ended, and that a file has become too large is an error as others
/// are: whoever started it may have asked for something else.
pub fn prepare() {
    // SAFETY: neither is a handler.
    unsafe {
        c::signal(SIGCHLD, SIG_DFL);
        c::signal(SIGXFSZ, SIG_IGN);
    }
}

/// How a process ended.
#[derive(Clone, Copy, Debug, PartialEq, Eq)]
pub enum End {
    Status(c_int),
    Signal(c_int),
    Unknown,
}

/// A process that was started here.
#[derive(Debug)]
pub struct Process(c_int);

impl Process {
    /// Starts a process that does the work and ends: with status 0 if it succeeds. It ends too when this process
    /// does. It has neither standard input nor output nor what is kept here, and leaves no core. There must be no other
    /// thread.
    pub fn start<T>(kept: T, work: impl FnOnce() -> io::Result<()>) -> io::Result<(Self, T)> {
        let parent = process::id();
        // SAFETY: there is one thread, so that all that it has is whole in the other process too.
        match unsafe { c::fork() } {
            -1 => Err(io::Error::last_os_error()),
            0 => {
                drop(kept);
                let done = catch_unwind(AssertUnwindSafe(|| alone(parent).and_then(|()| work())));
                end(if matches!(done, Ok(Ok(()))) { 0 } else { 1 })
            }
            process => Ok((Process(process), kept)),
        }
    }

    /// Ends it.
    pub fn kill(&self) {
        // SAFETY: the calls take numbers. The number is that of no other process before `wait`.
        unsafe { c::kill(self.0, SIGKILL) };
    }

    /// Waits until it ends: how it did.
    pub fn wait(&self) -> End {
        let mut status = 0;
        loop {
            // SAFETY: the call writes one number.
            if unsafe { c::waitpid(self.0, &mut status, 0) } == self.0 {
                let signal = status & 0x7f;
                return if signal == 0 { End::Status(status >> 8 & 0xff) } else { End::Signal(signal) };
            }
            if io::Error::last_os_error().kind() != io::ErrorKind::Interrupted {
                return End::Unknown;
            }
        }
    }
}

/// What prctl and setrlimit are asked for, on Linux.
const PR_SET_PDEATHSIG: c_int = 1;
const RLIMIT_CORE: c_int = 4;

#[repr(C)]
struct Limit {
    now: u64,
    most: u64,
}

/// What a new process does first.
fn alone(parent: u32) -> io::Result<()> {
    let none = Limit { now: 0, most: 0 };
    // SAFETY: the calls take numbers, and one a structure that it reads.
    unsafe {
        // It takes long numbers.
        c::prctl(PR_SET_PDEATHSIG, SIGKILL as c_ulong);
        c::setrlimit(RLIMIT_CORE, &none);
    }
    if parent_id() != parent {
        return Err(io::Error::other("the other process is gone"));
    }
    // Without the null device it keeps them, and does not use them.
    if let Ok(null) = File::options().read(true).write(true).open("/dev/null") {
        for standard in [0, 1] {
            // SAFETY: the call takes two numbers, and nothing in this process uses the second.
            unsafe { c::dup2(null.as_raw_fd(), standard) };
        }
    }
    Ok(())
}

/// That the programs which are started have no end of a pipe, on Linux.
const O_CLOEXEC: c_int = 0o2000000;

/// The two ends of a new pipe: where it is read, and where it is written.
pub fn pipe() -> io::Result<[File; 2]> {
    let mut ends = [0; 2];
    // SAFETY: the call writes two numbers.
    match unsafe { c::pipe2(ends.as_mut_ptr(), O_CLOEXEC) } {
        // SAFETY: two new descriptors, that nothing else has.
        0 => Ok(ends.map(|end| unsafe { File::from_raw_fd(end) })),
        _ => Err(io::Error::last_os_error()),
    }
}

/// A file that `poll` looks at, what it looks for and what it found.
#[repr(C)]
struct Polled {
    file: c_int,
    wanted: i16,
    found: i16,
}

const POLLIN: i16 = 1;

/// Waits until one of the files can be read or is at its end, or for so long: for each, whether it is.
pub fn wait_for<'a>(files: impl Iterator<Item = &'a File>, at_most: Option<Duration>) -> io::Result<Vec<bool>> {
    let mut polled: Vec<Polled> =
        files.map(|file| Polled { file: file.as_raw_fd(), wanted: POLLIN, found: 0 }).collect();
    let milliseconds = at_most.map_or(-1, |time| time.as_millis().try_into().unwrap_or(c_int::MAX));
    // SAFETY: the pointer and the length are those of one vector.
    let failed = unsafe { c::poll(polled.as_mut_ptr(), polled.len() as c_ulong, milliseconds) } < 0;
    let error = io::Error::last_os_error();
    if failed && error.kind() != io::ErrorKind::Interrupted {
        return Err(error);
    }
    Ok(polled.iter().map(|file| !failed && file.found != 0).collect())
}

/// How many rows and columns a terminal has, and points.
#[repr(C)]
#[derive(Default)]
struct Window {
    rows: u16,
    columns: u16,
    points: [u16; 2],
}

/// How many columns the terminal of standard error has, if it tells.
pub fn columns() -> Option<usize> {
    const STANDARD_ERROR: c_int = 2;
    const TIOCGWINSZ: c_ulong = 0x5413;
    let mut window = Window::default();
    // SAFETY: the call writes one structure.
    let answer = unsafe { c::ioctl(STANDARD_ERROR, TIOCGWINSZ, &mut window) };
    (answer == 0 && window.columns > 0).then_some(window.columns.into())
}
