//! How far an audit is, while it goes on: it writes the table of starts in the order of the file, so that the last
//! start which is there is the place that it has reached.
//!
//! The table is lent to the audit alone, and nothing else in the program may read it meanwhile. So the system is asked
//! for the memory at its address, as a debugger would ask: where that is not allowed, there is no place.

use super::shared::{Gauge, Step};
use super::Audit;
use crate::ffi::Answer;
use std::fs::File;
use std::os::unix::fs::FileExt;
use std::sync::{Arc, Mutex, PoisonError};
use std::thread;
use std::time::Duration;

/// How often it is looked.
const PAUSE: Duration = Duration::from_millis(500);

/// The memory of this process, by address.
const MEMORY: &str = "/proc/self/mem";

/// A table of starts that is lent to an audit: its address, and its length.
type Lent = Option<(usize, usize)>;

/// An audit that a second thread looks at.
#[derive(Clone)]
pub struct Reach(Arc<Mutex<Lent>>);

impl Reach {
    /// From now on `gauge` has the place. Without a thread it has none, and the audits are the same.
    pub fn new(gauge: &'static Gauge) -> Self {
        let reach = Reach(Arc::default());
        let other = reach.clone();
        let Ok(memory) = File::open(MEMORY) else { return reach };
        let _ = thread::Builder::new().spawn(move || loop {
            thread::sleep(PAUSE);
            other.with(|lent| {
                if let Some((start, len)) = *lent {
                    gauge.set(Step::Reached, reached(len, |nth| read(&memory, start, nth)));
                }
            });
        });
        reach
    }

    fn with(&self, act: impl FnOnce(&mut Lent)) {
        act(&mut self.0.lock().unwrap_or_else(PoisonError::into_inner));
    }

    pub fn audit(&self, audit: Audit, file: &[u8], tables: [&mut [u64]; 3]) -> Answer {
        let lent = (tables[0].as_ptr() as usize, tables[0].len());
        self.with(|table| *table = Some(lent));
        let answer = audit(file, tables);
        // Behind this the table may be gone.
        self.with(|table| *table = None);
        answer
    }
}

/// An entry of a table, or 0 if it cannot be read.
fn read(memory: &File, start: usize, nth: usize) -> u64 {
    let mut entry = [0; 8];
    let at = (start + 8 * nth) as u64;
    memory.read_exact_at(&mut entry, at).map_or(0, |()| u64::from_ne_bytes(entry))
}

/// The last start of a table whose first entries are there, and 0 behind them.
pub fn reached(len: usize, entry: impl Fn(usize) -> u64) -> u64 {
    let (mut there, mut behind) = (0, len);
    while there < behind {
        let middle = there + (behind - there) / 2;
        if entry(middle) == 0 {
            behind = middle;
        } else {
            there = middle + 1;
        }
    }
    there.checked_sub(1).map_or(0, entry)
}
