//! The programs as they are run, and what they print.

pub use super::folder::{folder, store};
use std::ffi::OsStr;
use std::path::Path;
use std::process::{Command, Output};

/// Cargo builds them before it runs the tests of all packages; `host/run-tests` builds them in any case.
pub const ROOTAUDIT: &str = concat!(env!("PROGRAMS"), "/rootaudit");
pub const ROOTKEYS: &str = concat!(env!("PROGRAMS"), "/rootkeys");

pub const PASSED: i32 = 0;
pub const REFUSED: i32 = 1;
pub const FAILED: i32 = 2;

/// The exit status, and what was printed to standard output and to standard error.
pub type Printed = (i32, String, String);

pub fn printed(output: Output) -> Printed {
    let [out, errors] = [output.stdout, output.stderr].map(|text| String::from_utf8(text).unwrap());
    (output.status.code().unwrap(), out, errors)
}

pub fn rootaudit<A: AsRef<OsStr>>(arguments: &[A]) -> Printed {
    printed(Command::new(ROOTAUDIT).args(arguments).output().unwrap())
}

/// The same in a folder.
pub fn rootaudit_in(folder: &Path, arguments: &[&str]) -> Printed {
    printed(Command::new(ROOTAUDIT).args(arguments).current_dir(folder).output().unwrap())
}

/// A line of the shell, with `$0` and `$1` as given.
pub fn shell(line: &str, program: &str, file: &Path) -> Printed {
    printed(Command::new("sh").args(["-c", line, program]).arg(file).output().unwrap())
}

/// A line about a file.
pub fn line(path: &Path, words: &str) -> String {
    format!("{}: {words}\n", path.display())
}

/// Whether a program that a test needs is there; a word about it if not.
pub fn is_there(program: &str) -> bool {
    let found = Command::new(program).arg("--version").output().is_ok();
    if !found {
        println!("skipped: {program} is not there");
    }
    found
}
