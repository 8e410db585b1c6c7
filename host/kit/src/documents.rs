//! Documents that are made, and what documents by hand are held to. Everything here reads files below the repository's
//! root and gives text back; `made::renew` alone writes.
//!
//! - `made`: all documents that are made.
//! - `theory`: definitions and theorems, in `specs` and `proofs` of a crate.
//! - `source`: functions and their promises, in `src` of a crate.
//! - `edit`: wrong answers, in `must-fail` of a crate.
//! - `repository`: all of them.
//! - `contracts`: docs/CONTRACTS.md.
//! - `believed`: the definitions that a promise rests on.
//! - `named`: the names that a document has in back-quotes.

pub mod believed;
pub mod contracts;
pub mod edit;
pub mod made;
pub mod named;
pub mod repository;
pub mod source;
pub mod theory;

use std::io;
use std::path::Path;

/// The text of docs/CONTRACTS.md.
pub fn contracts(root: &Path) -> io::Result<String> {
    repository::read(root).and_then(|repository| contracts::page(&repository))
}

/// A file that is not as it should be.
fn wrong(path: &Path, what: &str) -> io::Error {
    io::Error::other(format!("{}: {what}", path.display()))
}

/// The paths in a folder that have this ending, in the order of their names; none where there is no folder.
fn listed(folder: &Path, ending: &str) -> io::Result<Vec<std::path::PathBuf>> {
    if !folder.is_dir() {
        return Ok(Vec::new());
    }
    let paths = folder.read_dir()?.map(|entry| entry.map(|entry| entry.path()));
    let mut paths: Vec<_> = paths.collect::<io::Result<_>>()?;
    paths.retain(|path| path.extension().is_some_and(|found| found == ending));
    paths.sort();
    Ok(paths)
}

/// A file's text; the error names the file.
fn text(path: &Path) -> io::Result<String> {
    std::fs::read_to_string(path).map_err(|error| wrong(path, &error.to_string()))
}

/// A file's name without its ending.
fn stem(path: &Path) -> String {
    path.file_stem().unwrap_or_default().to_string_lossy().into_owned()
}
