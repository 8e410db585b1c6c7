//! One version: the header's, the library's, the package's and that of all that tells of them. A header and a
//! library of two versions are refused.

use kit::gen::one_root;
use kit::harness::c_program::{compiler, run, run_c_program, ARCHIVE};
use kit::harness::command::{folder, printed, rootaudit, store, FAILED, PASSED, ROOTAUDIT};
use kit::harness::folder::document;
use programs::ffi::version::{library, HEADER};
use programs::rootaudit::{self, run_with, Console};
use std::ffi::OsString;
use std::fs;
use std::process::Command;

const OTHERS: [u64; 4] = [0, HEADER - 1, HEADER + 1, u64::MAX];

#[test]
fn the_library_is_the_one_of_the_header() {
    assert_eq!(library(), HEADER);
    assert_eq!(run_c_program("same_version"), format!("version {HEADER}\n"));
}

/// A C program that asks is not run with another library.
#[test]
fn another_header() {
    let line = format!("#define ROOTMAP_VERSION {HEADER}\n");
    let header = document("include/rootmap.h");
    assert_eq!(header.matches(&line).count(), 1);
    for other in [HEADER - 1, HEADER + 1] {
        let folder = folder(&format!("version_{other}"));
        let changed = header.replace(&line, &format!("#define ROOTMAP_VERSION {other}\n"));
        fs::write(folder.join("rootmap.h"), changed).unwrap();
        // The header beside the program comes before the other.
        fs::write(folder.join("program.c"), document("host/kit/tests/c/same_version.c")).unwrap();
        let program = folder.join("program");
        let source = folder.join("program.c");
        run(compiler("CC", "cc").arg("-std=c99").arg(source).arg(ARCHIVE).arg("-o").arg(&program));
        let (status, out, errors) = printed(Command::new(program).output().unwrap());
        let words = format!("the header has version {other}, the library another\n");
        assert_eq!((status, out, errors), (1, String::new(), words));
    }
}

#[test]
fn the_same_number_everywhere() {
    let package = format!("0.{HEADER}.0");
    assert_eq!(env!("CARGO_PKG_VERSION"), package);
    assert!(document("host/rootmap.pc").contains(&format!("\nVersion: {package}\n")));
    let (status, out, _) = rootaudit(&["--version"]);
    assert_eq!((status, out.lines().next()), (PASSED, Some(format!("rootaudit {package}").as_str())));
    let manual = document("man/rootmap.3");
    assert!(manual.starts_with(&format!(".TH ROOTMAP 3 \"\" \"Kirovadzun {package}\" ")));
}

/// Every version has its heading, the newest first.
#[test]
fn the_list_of_changes() {
    let changes = document("CHANGELOG.md");
    let headings = changes.lines().filter_map(|line| line.strip_prefix("## Version "));
    let versions: Vec<u64> = headings.map(|rest| rest.split(':').next().unwrap().parse().unwrap()).collect();
    assert_eq!(versions, (1..=HEADER).rev().collect::<Vec<u64>>());
}

/// The command over a library of this version: its exit status and what it prints.
fn command_with(version: u64, arguments: &[&str], audits: &mut u64) -> (i32, String, String) {
    let audits = std::cell::RefCell::new(audits);
    let audit = |bytes: &[u8], tables: [&mut [u64]; 3]| {
        **audits.borrow_mut() += 1;
        rootaudit::library(bytes, tables)
    };
    let (mut out, mut errors) = (Vec::new(), Vec::new());
    let mut console = Console { out: &mut out, errors: &mut errors, terminal: None };
    let status = run_with(version, arguments.iter().map(OsString::from), &audit, &mut console);
    let [out, errors] = [out, errors].map(|text| String::from_utf8(text).unwrap());
    (status.into(), out, errors)
}

fn refusal(version: u64) -> (i32, String, String) {
    let words = format!("rootaudit: the library in it has version {version} and not {HEADER}, so nothing was done\n");
    (FAILED, String::new(), words)
}

/// With another library `rootaudit` does nothing.
#[test]
fn another_library() {
    let path = store("version.root", &one_root());
    let path = path.to_str().unwrap();
    for arguments in [&[path][..], &["--json", "--", path], &["--version"], &["--help"], &[]] {
        for version in OTHERS {
            let mut audits = 0;
            assert_eq!(command_with(version, arguments, &mut audits), refusal(version), "{arguments:?}");
            assert_eq!(audits, 0);
        }
    }
    let mut audits = 0;
    let (status, out, _) = command_with(HEADER, &[path], &mut audits);
    assert_eq!((status, out, audits), (PASSED, format!("{path}: passed 5\n"), 1));
}

/// The program itself, with another number in the library's code: `mov eax, HEADER; ret`.
#[test]
fn another_library_in_the_program() {
    let code = |version: u64| [&[0xb8], &(version as u32).to_le_bytes()[..], &[0xc3]].concat();
    let (from, to) = (code(HEADER), code(HEADER + 1));
    let mut program = fs::read(ROOTAUDIT).unwrap();
    let places: Vec<usize> =
        (0..program.len() - from.len()).filter(|&at| program[at..at + from.len()] == from).collect();
    assert!(!places.is_empty(), "the code of rootmap_version is another: look at the archive");
    for at in places {
        program[at..at + to.len()].copy_from_slice(&to);
    }
    let folder = folder("version_program");
    fs::write(folder.join("bytes"), program).unwrap();
    // A program that this process had open for writing might not start.
    run(Command::new("install").args(["-m", "755", "bytes", "rootaudit"]).current_dir(&folder));
    let path = store("version_program.root", &one_root());
    let output = Command::new(folder.join("rootaudit")).arg(path).output().unwrap();
    assert_eq!(printed(output), refusal(HEADER + 1));
}
