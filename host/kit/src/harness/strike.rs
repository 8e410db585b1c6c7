//! A command where something befalls one of its files while it is mapped (tests/c/strike.c).

use super::c_program::{compiler, run, SOURCES};
use super::command::ROOTAUDIT;
use super::folder::tmp;
use std::path::{Path, PathBuf};
use std::process::Command;
use std::sync::OnceLock;

/// The library that is put before the C library.
fn library() -> &'static Path {
    static LIBRARY: OnceLock<PathBuf> = OnceLock::new();
    LIBRARY.get_or_init(|| {
        let name = format!("strike-{}.so", std::process::id());
        let (source, library) = (Path::new(SOURCES).join("strike.c"), tmp().join(name));
        run(compiler("CC", "cc").args(["-shared", "-fPIC", "-o"]).arg(&library).arg(source).arg("-ldl"));
        library
    })
}

/// The command rootaudit, with what befalls the file.
pub fn struck(file: &Path, how: &str) -> Command {
    struck_at(ROOTAUDIT, file, how)
}

/// The same of any program.
pub fn struck_at(program: &str, file: &Path, how: &str) -> Command {
    let mut command = Command::new(program);
    command.env("LD_PRELOAD", library()).env("STRIKE_FILE", file).env("STRIKE_HOW", how);
    command
}

/// A pipe with a name, for which a file is held.
pub fn named_pipe(path: &Path) {
    run(Command::new("mkfifo").arg(path));
}
