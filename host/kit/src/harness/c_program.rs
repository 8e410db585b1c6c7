//! Compiles a C program over the C header, links it with the library and runs it.

use super::folder::{repository, tmp};
use std::env;
use std::path::Path;
use std::process::Command;

/// Where the C programs of the tests stand.
pub const SOURCES: &str = concat!(env!("CARGO_MANIFEST_DIR"), "/tests/c");

/// The library that they are linked with.
pub const ARCHIVE: &str = env!("ROOTMAP_ARCHIVE");

/// A compiler with all warnings as errors, that finds the header.
pub fn compiler(variable: &str, default: &str) -> Command {
    let mut command = Command::new(env::var_os(variable).unwrap_or_else(|| default.into()));
    command.args(["-Wall", "-Wextra", "-Wpedantic", "-Werror", "-I"]).arg(repository().join("include"));
    command
}

/// Runs a command that must succeed: what it printed.
pub fn run(command: &mut Command) -> String {
    let output = command.output().unwrap_or_else(|error| panic!("{command:?}: {error}"));
    let errors = String::from_utf8_lossy(&output.stderr);
    let printed = String::from_utf8_lossy(&output.stdout);
    assert!(output.status.success(), "{command:?}: {}\n{printed}{errors}", output.status);
    printed.into_owned()
}

/// Compiles, links and runs tests/c/`name`.c: what it printed.
pub fn run_c_program(name: &str) -> String {
    let source = Path::new(SOURCES).join(name).with_extension("c");
    let program = tmp().join(name);
    run(compiler("CC", "cc").arg("-std=c99").arg(source).arg(ARCHIVE).arg("-o").arg(&program));
    run(&mut Command::new(program))
}
