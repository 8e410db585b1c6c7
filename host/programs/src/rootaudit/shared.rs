//! What the processes of a command have in common: which file is audited by which of them, and how far each is. It is
//! memory that all of them see, and it stays until they end.

use super::mapped::{c, MAP_FAILED, PROT_READ};
use std::ffi::c_int;
use std::sync::atomic::{AtomicU64, Ordering};
use std::{io, ptr, slice};

/// What mmap is asked for, on Linux.
const PROT_WRITE: c_int = 2;
const MAP_SHARED: c_int = 1;
const MAP_ANONYMOUS: c_int = 0x20;

/// All numbers are 0 at first.
#[derive(Clone, Copy)]
pub struct Shared {
    /// Below it every file has its process.
    next: &'static AtomicU64,
    gauges: &'static [Gauge],
    /// For each file the number of the process that audits it, or 0.
    owners: &'static [AtomicU64],
}

/// How far one process is in its file.
#[repr(C)]
pub struct Gauge {
    /// The file's number, counted from 1; 0 if there is none.
    file: AtomicU64,
    /// How many bytes each step has done, at least.
    done: [AtomicU64; STEPS],
}

/// What is done with a file, each once for all of its bytes.
#[derive(Clone, Copy, Debug, PartialEq, Eq)]
pub enum Step {
    /// Its pieces are followed.
    Reached,
    /// Its bytes are fetched.
    Fetched,
    /// Its rows are told.
    Told,
}

const STEPS: usize = 3;

/// How many numbers a gauge is.
const GAUGE: usize = 1 + STEPS;
const _: () = assert!(size_of::<Gauge>() == 8 * GAUGE);

impl Shared {
    pub fn new(files: usize, gauges: usize) -> io::Result<Self> {
        let words = 1 + GAUGE * gauges + files;
        let (protection, flags) = (PROT_READ | PROT_WRITE, MAP_SHARED | MAP_ANONYMOUS);
        // SAFETY: new memory, that nothing else refers to.
        let start = unsafe { c::mmap(ptr::null_mut(), 8 * words, protection, flags, -1, 0) };
        if start as usize == MAP_FAILED {
            return Err(io::Error::last_os_error());
        }
        let start: *const AtomicU64 = start.cast();
        // SAFETY: the memory is `words` numbers of 8 bytes, zeroed, aligned and never unmapped; the three parts do not
        // overlap, and all in them are atomic.
        unsafe {
            Ok(Shared {
                next: &*start,
                gauges: slice::from_raw_parts(start.add(1).cast(), gauges),
                owners: slice::from_raw_parts(start.add(1 + GAUGE * gauges), files),
            })
        }
    }

    /// The next file for the process of this number, which is not 0. From then on it is that process's, whenever that
    /// process may end.
    pub fn claim(&self, process: u64) -> Option<usize> {
        loop {
            let next = self.next.load(Ordering::SeqCst);
            let owner = self.owners.get(next as usize)?;
            let claimed = owner.compare_exchange(0, process, Ordering::SeqCst, Ordering::SeqCst);
            // Whoever sees that it is taken goes on, since the other process may have ended.
            let _ = self.next.compare_exchange(next, next + 1, Ordering::SeqCst, Ordering::SeqCst);
            if claimed.is_ok() {
                return Some(next as usize);
            }
        }
    }

    pub fn is_claimed(&self, nth: usize, process: u64) -> bool {
        self.owners.get(nth).is_some_and(|owner| owner.load(Ordering::SeqCst) == process)
    }

    /// The first file from this one on that is that process's.
    pub fn claimed(&self, from: usize, process: u64) -> Option<usize> {
        // The last one to be taken may stand at `next` itself.
        let end = self.owners.len().min(self.next() + 1);
        (from..end).find(|&nth| self.is_claimed(nth, process))
    }

    pub fn next(&self) -> usize {
        self.next.load(Ordering::SeqCst) as usize
    }

    pub fn gauge(&self, nth: usize) -> &'static Gauge {
        &self.gauges[nth]
    }

    /// What is done of files that are not done, by file, where each has so many steps.
    pub fn under_way(&self, steps: u64) -> impl Iterator<Item = (usize, u64)> + '_ {
        self.gauges.iter().filter_map(move |gauge| {
            let nth = gauge.file.load(Ordering::Relaxed).checked_sub(1)?;
            let done = gauge.done.iter().map(|done| done.load(Ordering::Relaxed) / steps);
            Some((nth as usize, done.sum()))
        })
    }
}

impl Gauge {
    /// A file is begun, or there is none.
    pub fn begin(&self, file: Option<usize>) {
        self.done.iter().for_each(|done| done.store(0, Ordering::Relaxed));
        self.file.store(file.map_or(0, |nth| nth as u64 + 1), Ordering::Relaxed);
    }

    /// A step has come so far. What was done once is not undone where a file is audited again.
    pub fn set(&self, step: Step, bytes: u64) {
        self.done[step as usize].fetch_max(bytes, Ordering::Relaxed);
    }

    pub fn get(&self, step: Step) -> u64 {
        self.done[step as usize].load(Ordering::Relaxed)
    }
}
