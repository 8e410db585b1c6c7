//! The command rootaudit over audits that are not the library's: an audit that is not finished is never
//! a pass, nor is an answer that the interface does not have, nor a file that changes meanwhile.

use kit::gen::one_root;
use kit::harness::command::store;
use programs::ffi::Answer;
use programs::rootaudit::verdict::{examine, first_room, Verdict};
use programs::rootaudit::{run, words, Audit, Console, FAILED, PASSED, REFUSED};
use std::cell::RefCell;
use std::ffi::OsString;
use std::fs::{self, OpenOptions};
use std::io::{self, Write};
use std::os::unix::fs::symlink;
use std::path::Path;
use std::thread;
use std::time::Duration;

/// The command with another audit: its exit status and what it prints.
fn rootaudit(path: &Path, audit: Audit) -> (u8, String) {
    let (mut out, mut errors) = (Vec::new(), Vec::new());
    let mut console = Console { out: &mut out, errors: &mut errors, terminal: None };
    let status = run(["--rows".into(), OsString::from(path)], audit, &mut console);
    assert!(errors.is_empty());
    (status, String::from_utf8(out).unwrap())
}

/// The rows of one.root: start, part and owner.
const ROWS: [[u64; 5]; 3] = [[100, 168, 218, 297, 309], [1, 5, 4, 0, 2], [0, 100, 100, 0, 0]];
const START: usize = 0;
const PART: usize = 1;

/// A pass with these rows.
fn pass(tables: [&mut [u64]; 3], rows: [[u64; 5]; 3]) -> Answer {
    for (table, rows) in tables.into_iter().zip(rows) {
        table[..5].copy_from_slice(&rows);
    }
    Answer::success(5)
}

/// Fails unless the one line says that the file was not audited, and why.
fn expect_failure(path: &Path, why: &str, audit: Audit) {
    let (status, out) = rootaudit(path, audit);
    assert_eq!((status, out.lines().count()), (FAILED, 1), "{out}");
    assert!(out.starts_with(&format!("{}: not audited{why}", path.display())) && !out.contains("passed"), "{out}");
}

#[test]
fn unfinished_is_never_a_pass() {
    let path = store("fake_unfinished.root", &vec![0; 1 << 20]);
    let most = (1 << 20) / 4;
    for count in [0, 1, 5, 1023, 1024, 1025, 5000, most, most + 1, u32::MAX.into(), u64::MAX] {
        let rooms = RefCell::new(Vec::new());
        let audit = |_: &[u8], tables: [&mut [u64]; 3]| {
            let [start, part, owner] = tables;
            assert_eq!([start.len(); 2], [part.len(), owner.len()]);
            // Rows as of a pass.
            (start[0], part[0]) = (100, 1);
            rooms.borrow_mut().push(start.len() as u64);
            Answer { number: 7, place: 0, count }
        };
        expect_failure(&path, " to its end: ", &audit);
        // A second audit if the count can be true, with so many rows, and no third.
        let second = (1025..=most).contains(&count).then_some(count);
        assert_eq!(rooms.into_inner(), [1024].into_iter().chain(second).collect::<Vec<u64>>());
    }
}

/// More pieces at each audit, as if the file grew.
#[test]
fn unfinished_again() {
    let path = store("fake_again.root", &vec![0; 1 << 20]);
    let audit = |_: &[u8], [start, ..]: [&mut [u64]; 3]| Answer { number: 7, place: 0, count: start.len() as u64 + 1 };
    expect_failure(&path, " to its end: ", &audit);
}

#[test]
fn answers_that_are_none() {
    let path = store("fake_numbers.root", &one_root());
    let why = ": the library answered Answer {";
    for number in [15, 18, 24, 25, u64::MAX] {
        expect_failure(&path, why, &|_, tables| Answer { number, ..pass(tables, ROWS) });
    }
    // A pass of no pieces, or of more than there are rows.
    for count in [0, 1025, u64::MAX] {
        expect_failure(&path, why, &|_, tables| Answer { count, ..pass(tables, ROWS) });
    }
}

/// A number that is no part, and starts that do not rise from 100 to below END.
#[test]
fn rows_that_are_none() {
    let path = store("fake_rows.root", &one_root());
    assert_eq!(rootaudit(&path, &|_, tables| pass(tables, ROWS)).0, PASSED);
    let parts = (0..5).flat_map(|row| [8, 1 << 32, (1 << 32) + 5, u64::MAX].map(|part| (PART, row, part)));
    let starts = [
        (START, 0, 0),
        (START, 0, 99),
        (START, 0, 101),
        (START, 1, 100),
        (START, 2, 168),
        (START, 2, 167),
        (START, 2, (1 << 32) + 218),
        (START, 4, 297),
        (START, 4, 364),
        (START, 4, (1 << 32) + 309),
        (START, 4, u64::MAX),
    ];
    for (table, row, number) in parts.chain(starts) {
        let mut rows = ROWS;
        rows[table][row] = number;
        expect_failure(&path, ": the library answered rows of no file\n", &|_, tables| pass(tables, rows));
    }
}

/// With `--read` a file that passes is audited again when all of it was fetched, and what that says counts. One that is
/// refused is audited once.
#[test]
fn read_and_audited_again() {
    let path = store("fake_read.root", &one_root());
    for (answers, status) in [([0, 5], REFUSED), ([0, 24], FAILED), ([0, 0], PASSED)] {
        let audits = RefCell::new(0);
        let audit = |_: &[u8], tables: [&mut [u64]; 3]| {
            *audits.borrow_mut() += 1;
            let number = answers[*audits.borrow() - 1];
            if number == 0 {
                pass(tables, ROWS)
            } else {
                Answer::refusal(number, 297)
            }
        };
        let (mut out, mut errors) = (Vec::new(), Vec::new());
        let mut console = Console { out: &mut out, errors: &mut errors, terminal: None };
        let found = run(["--read".into(), OsString::from(&path)], &audit, &mut console);
        assert_eq!((found, *audits.borrow()), (status, 2));
        assert_eq!(String::from_utf8(out).unwrap().contains("passed"), status == PASSED);
    }
    let audits = RefCell::new(0);
    let audit = |_: &[u8], _: [&mut [u64]; 3]| {
        *audits.borrow_mut() += 1;
        Answer::refusal(5, 297)
    };
    let mut console = Console { out: &mut io::sink(), errors: &mut io::sink(), terminal: None };
    assert_eq!(run(["--read".into(), OsString::from(&path)], &audit, &mut console), REFUSED);
    assert_eq!(*audits.borrow(), 1);
}

/// As many rows as the first answer says, and they are the verdict's.
#[test]
fn a_second_audit() {
    let file = vec![0; 100_000];
    let audit = |_: &[u8], [start, part, owner]: [&mut [u64]; 3]| {
        if start.len() < 2000 {
            return Answer { number: 7, place: 0, count: 2000 };
        }
        assert_eq!([start.len(), part.len(), owner.len()], [2000; 3]);
        for (row, start) in start.iter_mut().enumerate() {
            *start = 100 + 4 * row as u64;
        }
        part[1999] = 6;
        owner[1999] = 100;
        Answer { number: 0, place: 0, count: 2000 }
    };
    let Verdict::Passed(tables) = examine(&file, &audit) else { panic!("no pass") };
    assert_eq!([tables.start.len(), tables.part.len(), tables.owner.len()], [2000; 3]);
    assert_eq!((tables.start[1999], tables.part[1999], tables.owner[1999], tables.end), (8096, 6, 100, 100_000));
}

#[test]
fn every_refusal_has_words() {
    let file = one_root();
    let mut said: Vec<String> = Vec::new();
    for number in (1..=14).filter(|&number| number != 7) {
        let answer = Answer::refusal(number, 309);
        assert_eq!(examine(&file, &|_, _| answer), Verdict::Refused(answer.into()));
        said.push(words::refusal(&answer, &file).0);
    }
    said.push(words::refusal(&Answer::refusal(15, 0), &file).0);
    said.sort();
    said.dedup();
    assert_eq!(said.len(), 14, "two refusals have the same words");
    // The place of a refusal may lie anywhere.
    for place in [0, 1 << 40, u64::MAX] {
        assert!(!words::refusal(&Answer::refusal(6, place), &file).0.is_empty());
    }
}

#[test]
fn rooms_to_begin_with() {
    for (len, room) in [(0, 1024), (1 << 20, 1024), (1 << 21, 2048), (500_000_000, 488_281), (1 << 32, 1 << 20)] {
        assert_eq!(first_room(len), room);
    }
}

/// What is done to a file while it is audited. Its date is set back where there is one.
fn expect_seen(name: &str, meddle: impl Fn(&Path)) {
    let path = store(name, &one_root());
    let date = fs::metadata(&path).unwrap().modified().unwrap();
    let audit = |_: &[u8], tables: [&mut [u64]; 3]| {
        // The clock of a file system may stand still for so long.
        thread::sleep(Duration::from_millis(30));
        meddle(&path);
        if let Ok(file) = OpenOptions::new().write(true).open(&path) {
            file.set_modified(date).unwrap();
        }
        pass(tables, ROWS)
    };
    expect_failure(&path, CHANGED, &audit);
}

const CHANGED: &str = ": it was changed, replaced or removed meanwhile\n";

#[test]
fn a_change_is_seen() {
    expect_seen("fake_grown.root", |path| {
        OpenOptions::new().append(true).open(path).unwrap().write_all(b"more").unwrap();
    });
    expect_seen("fake_written.root", |path| {
        OpenOptions::new().write(true).open(path).unwrap().write_all(b"root").unwrap();
    });
    expect_seen("fake_removed.root", |path| fs::remove_file(path).unwrap());
    expect_seen("fake_moved.root", |path| fs::rename(path, path.with_extension("old")).unwrap());
}

/// Another file stands at the path, of the same length and date, though the open one is as it was.
#[test]
fn a_replacement_is_seen() {
    expect_seen("fake_replaced.root", |path| {
        let other = store("fake_other.root", &one_root());
        fs::rename(other, path).unwrap();
    });
    let folder = kit::harness::command::folder("fake_links");
    let [target, other] = ["target", "other"].map(|name| folder.join(name));
    for file in [&target, &other] {
        fs::write(file, one_root()).unwrap();
    }
    let link = folder.join("link.root");
    symlink(&target, &link).unwrap();
    let audit = |_: &[u8], tables: [&mut [u64]; 3]| {
        fs::remove_file(&link).unwrap();
        symlink(&other, &link).unwrap();
        pass(tables, ROWS)
    };
    expect_failure(&link, CHANGED, &audit);
}

/// A file that passed and is changed while another is audited: its pass is taken back.
#[test]
fn a_late_change_is_seen() {
    let first = store("fake_first.root", &one_root());
    let second = store("fake_second.root", &[0; 500]);
    let audit = |bytes: &[u8], tables: [&mut [u64]; 3]| {
        if bytes.len() == 500 {
            thread::sleep(Duration::from_millis(30));
            fs::write(&first, one_root()).unwrap();
        }
        pass(tables, ROWS)
    };
    let (mut out, mut errors) = (Vec::new(), Vec::new());
    let mut console = Console { out: &mut out, errors: &mut errors, terminal: None };
    assert_eq!(run([first.clone().into(), second.into()], &audit, &mut console), FAILED);
    let out = String::from_utf8(out).unwrap();
    let last = "2 files: 1 passed, 0 refused, 1 not read: do not clear the disk\n";
    let late = "no pass any more: it was changed, replaced or removed after it was audited";
    assert!(out.ends_with(&(kit::harness::command::line(&first, late) + last)), "{out}");
}

/// A file that nobody touches is not said to have changed: reading it is no change.
#[test]
fn no_change_is_seen() {
    let path = store("fake_untouched.root", &one_root());
    let audit = |_: &[u8], tables: [&mut [u64]; 3]| {
        assert_eq!(fs::read(&path).unwrap(), one_root());
        pass(tables, ROWS)
    };
    assert_eq!(rootaudit(&path, &audit).0, PASSED);
}

/// What cannot be printed is no success.
#[test]
fn output_that_fails() {
    struct Full;
    impl Write for Full {
        fn write(&mut self, _: &[u8]) -> io::Result<usize> {
            Err(io::Error::other("full"))
        }
        fn flush(&mut self) -> io::Result<()> {
            Ok(())
        }
    }
    let path = store("fake_output.root", &one_root());
    let mut errors = Vec::new();
    let mut console = Console { out: &mut Full, errors: &mut errors, terminal: None };
    assert_eq!(run([path.into()], &|_, tables| pass(tables, ROWS), &mut console), FAILED);
    assert_eq!(String::from_utf8(errors).unwrap(), "rootaudit: output: full\n");
}
