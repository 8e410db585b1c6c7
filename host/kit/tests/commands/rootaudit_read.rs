//! `--read` fetches every byte and reports a read error; without it a bad sector in data goes unseen.

use kit::gen::one_root;
use kit::harness::c_program::{compiler, run};
use kit::harness::command::{line, printed, rootaudit, store, Printed, FAILED, PASSED, REFUSED, ROOTAUDIT};
use kit::harness::folder::tmp;
use std::ffi::OsStr;
use std::path::{Path, PathBuf};
use std::process::Command;
use std::thread;

/// The library that stands in for the disk.
fn bad_disk() -> PathBuf {
    let source = Path::new(kit::harness::c_program::SOURCES).join("bad_sector.c");
    let library = tmp().join(format!("bad_sector-{:?}.so", thread::current().id()));
    run(compiler("CC", "cc").args(["-shared", "-fPIC", "-o"]).arg(&library).arg(source));
    library
}

/// The command on a disk with a bad byte.
fn on_bad_disk(library: &Path, bad: usize, arguments: &[&OsStr]) -> Printed {
    let mut command = Command::new(ROOTAUDIT);
    printed(command.args(arguments).env("LD_PRELOAD", library).env("BAD_BYTE", bad.to_string()).output().unwrap())
}

#[test]
fn read_errors() {
    let library = bad_disk();
    let path = store("read_bad.root", &one_root());
    let [read, file] = [OsStr::new("--read"), path.as_os_str()];
    // The last byte of the data of "x": an audit does not look there.
    for bad in [0, 217, 363] {
        assert_eq!(on_bad_disk(&library, bad, &[file]), (PASSED, line(&path, "passed 5"), String::new()));
        let words = "could not be read: bytes 0 to 363: Input/output error (os error 5)";
        assert_eq!(on_bad_disk(&library, bad, &[read, file]), (FAILED, line(&path, words), String::new()));
    }
    // Past the end, so that all is fetched.
    assert_eq!(on_bad_disk(&library, 364, &[read, file]).0, PASSED);
}

/// A file that is refused is not fetched first: it says so at once, whatever its disk is.
#[test]
fn refused_at_once() {
    let library = bad_disk();
    let mut file = one_root();
    file[297] = 0;
    let path = store("read_refused.root", &file);
    let arguments = [OsStr::new("--read"), path.as_os_str()];
    let found = on_bad_disk(&library, 217, &arguments);
    assert_eq!((found.0, &found), (REFUSED, &rootaudit(&arguments)));
}

/// Where nothing is wrong with the disk the verdicts are the same.
#[test]
fn the_same_verdicts() {
    let long = [one_root(), vec![0; 3 << 20]].concat();
    for (name, bytes, status) in [
        ("read_good.root", one_root(), PASSED),
        ("read_empty.root", vec![], REFUSED),
        ("read_long.root", long, REFUSED),
    ] {
        let path = store(name, &bytes);
        let found = rootaudit(&[OsStr::new("--read"), path.as_os_str()]);
        assert_eq!((found.0, &found), (status, &rootaudit(&[&path])));
    }
}
