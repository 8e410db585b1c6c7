//! What tests run, and what they lend.
//!
//! - `folder`: folders and files for a test.
//! - `command`: the programs, and what they print.
//! - `strike`: what befalls a file while it is mapped.
//! - `c_program`: C programs over the header and the library.
//! - `edge`, `zeros`, `sparse`: bytes that end where memory ends, more than 32 bits can count, and files with holes.
//! - `json`: lines of JSON, read strictly.
//! - `root_folder`: files written by ROOT.

pub mod c_program;
pub mod command;
pub mod edge;
pub mod folder;
pub mod json;
mod memory;
pub mod root_folder;
pub mod sparse;
pub mod strike;
pub mod zeros;
