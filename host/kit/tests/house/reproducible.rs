//! The same sources, library and compilers give the same bits of the program, whatever folder they stand in.

use kit::harness::c_program::ARCHIVE;
use kit::harness::command::folder;
use kit::harness::folder::repository;
use std::path::{Path, PathBuf};
use std::process::Command;
use std::{env, fs};

/// Copies a folder, but for what is built in it.
fn copy(from: &Path, to: &Path) {
    fs::create_dir_all(to).unwrap();
    for entry in fs::read_dir(from).unwrap().map(Result::unwrap) {
        let [from, to] = [entry.path(), to.join(entry.file_name())];
        if entry.file_type().unwrap().is_file() {
            fs::copy(from, to).unwrap();
        } else if entry.file_name() != "target" {
            copy(&from, &to);
        }
    }
}

/// Builds the program from the sources in a folder: its bits.
fn built(folder: PathBuf) -> Vec<u8> {
    copy(&repository().join("host"), &folder.join("host"));
    let mut cargo = Command::new(env::var_os("CARGO").unwrap_or("cargo".into()));
    cargo.args(["build", "--release", "--offline", "--quiet", "--package", "programs", "--bin", "rootaudit"]);
    cargo.current_dir(folder.join("host")).env("CARGO_TARGET_DIR", folder.join("target"));
    cargo.env("ROOTMAP_LIB_DIR", Path::new(ARCHIVE).parent().unwrap());
    assert!(cargo.status().unwrap().success());
    fs::read(folder.join("target/release/rootaudit")).unwrap()
}

#[test]
fn the_same_bits() {
    let folder = folder("reproducible");
    let [one, other] = ["one", "another/with a longer name"].map(|name| built(folder.join(name)));
    assert!(one == other, "{} and {} bytes", one.len(), other.len());
    let folder = folder.to_str().unwrap().as_bytes();
    assert!(!one.windows(folder.len()).any(|bytes| bytes == folder), "the folder is in it");
}
