//! What the tests and benchmarks need to compare the proved library with the second program.
//!
//! - `gen`: inputs, the same in every run.
//! - `compare`: both on one input, and a comparison of all that they answer and write.
//! - `documents`: pages that are made from the crates, and what holds the others to them.
//! - `harness`: programs that are run, C programs, folders, files and memory for the tests.
//! - `rivals`: the library and both others, called in the same way by the benchmarks.
//! - `timing`: what the benchmarks share.

pub mod compare;
pub mod documents;
pub mod gen;
pub mod harness;
pub mod rivals;
pub mod timing;
