//! How the system is to fetch a mapped file that is not in memory: with read-ahead, or only the pages that are
//! read. An audit reads the start of each piece. Where pieces are small, read-ahead spares most requests to the
//! disk; where they are large, it fetches data that nobody reads.
//!
//! It is chosen by the mean size of the last pieces, while the chain is followed ahead of the audit, which then
//! finds what it needs in memory. What lies behind the last piece that was looked at is read ahead.

use super::header::end_of;
use super::pieces::Walk;

#[derive(Clone, Copy, Debug, PartialEq, Eq)]
pub enum Advice {
    /// The system reads ahead.
    Normal,
    /// It fetches the pages that are read, and no others.
    Random,
}

/// Pieces of this mean size are large. `docs/BENCHMARKS.md` has the measurements.
pub const LARGE: u64 = 128 << 10;

/// Of how many pieces the mean is taken.
pub const RUN: usize = 16;

/// Pieces are looked at as long as they are no more than this and one for each `LARGE` bytes: all of them where
/// they are large, and few where they are small.
pub const SPARE: u64 = 4096;

/// The advice for the piece after pieces of these sizes.
pub fn of(sizes: &[u64; RUN]) -> Advice {
    if sizes.iter().sum::<u64>() < RUN as u64 * LARGE {
        Advice::Normal
    } else {
        Advice::Random
    }
}

/// Follows the chain of a file, and gives each advice before the piece that it is for. None is given for a file
/// that is too short to have a run of large pieces.
pub fn follow(file: &[u8], mut give: impl FnMut(Advice)) {
    let len = file.len() as u64;
    if len < RUN as u64 * LARGE {
        return;
    }
    // The first look takes no more than a page for each piece.
    let mut given = Advice::Random;
    give(given);
    // A file with another END is refused without a look at its pieces.
    if end_of(file) != Some(len) {
        return give(Advice::Normal);
    }
    let mut walk = Walk::new(file);
    let mut sizes = [LARGE; RUN];
    for (nth, piece) in walk.by_ref().enumerate() {
        if nth as u64 >= SPARE + piece.end() / LARGE {
            return give(Advice::Normal);
        }
        sizes[nth % RUN] = piece.size;
        let advice = if nth + 1 < RUN { given } else { of(&sizes) };
        if advice != given {
            given = advice;
            give(given);
        }
    }
    // At the end only the rest of the lists is left to be fetched.
    give(if walk.stopped.is_some() { Advice::Normal } else { Advice::Random });
}
