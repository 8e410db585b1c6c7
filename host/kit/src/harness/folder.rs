//! Folders and files for a test, below the folder that cargo builds in, and the repository's own.

use std::fs;
use std::path::{Path, PathBuf};

/// The repository.
pub fn repository() -> PathBuf {
    let above = Path::new(env!("CARGO_MANIFEST_DIR")).ancestors().nth(2);
    above.expect("the kit stands in host/kit").to_owned()
}

/// A text of the repository.
pub fn document(name: &str) -> String {
    let path = repository().join(name);
    fs::read_to_string(&path).unwrap_or_else(|error| panic!("{}: {error}", path.display()))
}

/// The code of this language that stands first after a heading.
pub fn code(text: &str, heading: &str, language: &str) -> String {
    let (_, rest) = text.split_once(&format!("\n{heading}\n")).unwrap();
    let (_, code) = rest.split_once(&format!("```{language}\n")).unwrap();
    code.split_once("```").unwrap().0.to_owned()
}

/// The folder of all files that tests write.
pub fn tmp() -> PathBuf {
    let path = Path::new(env!("PROGRAMS")).join("tests");
    fs::create_dir_all(&path).unwrap();
    path
}

/// Writes a file.
pub fn store(name: &str, bytes: &[u8]) -> PathBuf {
    let path = tmp().join(name);
    fs::write(&path, bytes).unwrap();
    path
}

/// An empty folder.
pub fn folder(name: &str) -> PathBuf {
    let path = tmp().join(name);
    if path.exists() {
        fs::remove_dir_all(&path).unwrap();
    }
    fs::create_dir(&path).unwrap();
    path
}
