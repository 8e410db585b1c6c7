//! The audit, salvage, the card and the StreamerInfo reader once more, written for speed: what the benchmarks measure the
//! proved library against. Safe Rust over lent tables, one pass over the pieces, no header taken apart twice but
//! the info record's, bytes compared by the slice, a heap of waiting directories, a bit for each place that was
//! tried. The tests hold it to the library.

pub mod audit;
pub mod card;
pub mod info;
mod key;
pub mod salvage;
