//! The command rootaudit: what it prints, and its exit status.

use kit::gen::files::plan_of;
use kit::gen::{nested, one_root, wide_root, Rng, ONE_ROOT_LIST, WIDE_ROOT_LIST};
use kit::harness::command::{line, rootaudit, store, FAILED, PASSED, REFUSED};
use kit::harness::folder::tmp;
use programs::rootaudit::escape;
use programs::rootaudit::verdict::first_room;
use programs::rootaudit::words::{AGAIN, LOOK, WAIT};
use second::{audit, key, part};
use std::ffi::OsStr;
use std::path::Path;

/// A list of document 01 for a form of one.root, with the keys of its records.
fn with_keys(list: &str) -> String {
    let keys = ["", "\tTFile\ta;1", "\tTObjString\tx;1", "\tTFile\ta;1", "", "\tTFile\ta;1"];
    assert_eq!(list.lines().count(), keys.len());
    list.lines().zip(keys).map(|(line, key)| format!("{line}{key}\n")).collect()
}

/// For files alone: nothing is printed to standard error.
fn audited(paths: &[&Path]) -> (i32, String) {
    let (status, out, errors) = rootaudit(paths);
    assert_eq!(errors, "");
    (status, out)
}

#[test]
fn passes() {
    let path = store("audit_one.root", &one_root());
    assert_eq!(audited(&[&path]), (PASSED, line(&path, "passed 5")));
}

#[test]
fn prints_rows() {
    let path = store("audit_rows.root", &one_root());
    let (status, out, errors) = rootaudit(&[OsStr::new("--rows"), path.as_os_str()]);
    assert_eq!(
        (status, out, errors),
        (PASSED, format!("{}: {}", path.display(), with_keys(ONE_ROOT_LIST)), String::new())
    );
    let path = store("audit_rows_wide.root", &wide_root());
    let (status, out, errors) = rootaudit(&[OsStr::new("--rows"), path.as_os_str()]);
    assert_eq!(
        (status, out, errors),
        (PASSED, format!("{}: {}", path.display(), with_keys(WIDE_ROOT_LIST)), String::new())
    );
}

/// What is done to one.root.
enum Change {
    Cut(usize),
    Byte(usize, u8),
}

/// Changes of one.root, what is then to be done, and how many pieces the chain has.
const REFUSALS: [(Change, &str, usize); 15] = [
    (Change::Cut(0), AGAIN, 0),
    (Change::Cut(99), AGAIN, 0),
    (Change::Byte(0, b'R'), LOOK, 0),
    (Change::Byte(32, 8), AGAIN, 0),
    (Change::Cut(300), WAIT, 3),
    (Change::Byte(13, 1), WAIT, 5),
    (Change::Byte(10, 1), WAIT, 5),
    (Change::Byte(297, 0), AGAIN, 3),
    (Change::Byte(330, 0), AGAIN, 4),
    (Change::Byte(313, 4), AGAIN, 4),
    (Change::Byte(127, b'X'), AGAIN, 5),
    (Change::Byte(353, 53), AGAIN, 5),
    (Change::Byte(40, 7), AGAIN, 5),
    (Change::Byte(245, b'X'), AGAIN, 5),
    (Change::Byte(267, 0), AGAIN, 5),
];

/// What is printed of each.
const SAID: &str = "\
refused 1 at 0: shorter than the header of a ROOT file, 100 bytes
refused 1 at 0: shorter than the header of a ROOT file, 100 bytes
refused 2 at 0: no ROOT file: it does not begin with \"root\"
refused 3 at 0: Version and Units in its header disagree
refused 4 at 0: its header says 364 bytes, it has 300
refused 4 at 0: its header says 65,900 bytes, it has 364
refused 4 at 0: its header says that its records begin at byte 356, and not at 100
refused 5 at 297: no record and no gap of a possible size stands here
refused 6 at 309: the record here has a damaged key, or says that it stands elsewhere
refused 6 at 309: the record here has a damaged key, or says that it stands elsewhere
refused 8 at 100: the record of the file itself, which stands here, is damaged
refused 9 at 309: the list of free space, which should stand here, is damaged or is not that of the gaps
refused 10 at 7: the StreamerInfo record, which should stand here, is damaged or missing
refused 12 at 218: the list of a directory's keys, which should stand here, is damaged or missing
refused 13 at 257: the entry here in a list of keys is not that of a record of its directory
";

/// The pieces of one.root: place, size and part.
const PIECES: [(u64, u64, u64); 5] = [
    (100, 68, part::HEAD),
    (168, 50, part::LISTED),
    (218, 79, part::KEYS),
    (297, 12, part::GAP),
    (309, 55, part::FREE),
];

/// The first pieces of a form of one.root, as they are printed after a refusal: no verdict, no part and no owner.
fn without_verdict(file: &[u8], pieces: usize) -> String {
    let lines = PIECES[..pieces].iter().map(|&(start, size, part)| {
        let kind = if part == part::GAP { "gap" } else { "record" };
        format!("no verdict: {start} {size} {kind}{}\n", key_of(file, &audit::Row { start, part, owner: 0 }))
    });
    lines.collect()
}

/// No rows of a file that is refused, but the pieces that its chain has, where its header is that of a ROOT file.
#[test]
fn refuses() {
    assert_eq!(SAID.lines().count(), REFUSALS.len());
    for (nth, ((change, next, pieces), words)) in REFUSALS.iter().zip(SAID.lines()).enumerate() {
        let mut file = one_root();
        match *change {
            Change::Cut(len) => file.truncate(len),
            Change::Byte(at, value) => file[at] = value,
        }
        let path = store(&format!("audit_refused_{nth}.root"), &file);
        let words = line(&path, &format!("{words}; now: {next}"));
        assert_eq!(rootaudit(&[&path]), (REFUSED, words.clone(), String::new()));
        let (status, out, errors) = rootaudit(&[OsStr::new("--rows"), path.as_os_str()]);
        assert_eq!((status, out, errors), (REFUSED, words + &without_verdict(&file, *pieces), String::new()));
    }
}

/// END of a wide file has eight bytes, and all of them count.
#[test]
fn refuses_bounds_of_wide_files() {
    for (at, value, len, words) in [
        (12, 0, 300, "its header says 432 bytes, it has 300"),
        (15, 1, 432, "its header says 4,294,967,728 bytes, it has 432"),
        (12, 1, 432, "its header says 72,057,594,037,928,368 bytes, it has 432"),
        (10, 1, 432, "its header says that its records begin at byte 356, and not at 100"),
    ] {
        let mut file = wide_root()[..len].to_vec();
        file[at] = value;
        let path = store("audit_wide_bounds.root", &file);
        let words = line(&path, &format!("refused 4 at 0: {words}; now: {WAIT}"));
        assert_eq!(rootaudit(&[&path]), (REFUSED, words, String::new()));
    }
}

#[test]
fn cannot_read() {
    let missing = Path::new("no such folder/no such file");
    let (status, out) = audited(&[missing]);
    assert_eq!(status, FAILED);
    assert!(out.starts_with("no such folder/no such file: could not be read: ") && out.ends_with('\n'), "{out}");
    let folder = tmp();
    assert_eq!(audited(&[&folder]), (FAILED, line(&folder, "could not be read: it is a directory")));
    let device = Path::new("/dev/null");
    assert_eq!(audited(&[device]), (FAILED, line(device, "could not be read: it is no regular file")));
}

/// A line a file, in the order of the command line, and a last line. Status 2 goes before 1, and 1 before 0.
#[test]
fn several_files() {
    let [good, other] = ["audit_good.root", "audit_other.root"].map(|name| store(name, &one_root()));
    let empty = store("audit_empty.root", &[]);
    let missing = Path::new("no such file");
    let passed = |path| line(path, "passed 5");
    let refused = format!("refused 1 at 0: shorter than the header of a ROOT file, 100 bytes; now: {AGAIN}");
    let refused = line(&empty, &refused);
    let last = "2 files: 2 passed, 0 refused, 0 not read: all passed\n";
    assert_eq!(audited(&[&good, &other]), (PASSED, passed(&good) + &passed(&other) + last));
    let last = "2 files: 2 passed, 0 refused, 0 not read; 1 named more than once: all passed\n";
    assert_eq!(audited(&[&good, &good]), (PASSED, passed(&good) + &passed(&good) + last));
    let last = "2 files: 1 passed, 1 refused, 0 not read: do not clear the disk\n";
    assert_eq!(audited(&[&empty, &good]), (REFUSED, refused.clone() + &passed(&good) + last));
    assert_eq!(audited(&[&good, &empty]), (REFUSED, passed(&good) + &refused + last));
    for files in [[missing, &empty, &good], [&empty, missing, &good], [&good, &empty, missing]] {
        let (status, out) = audited(&files);
        assert_eq!((status, out.lines().count()), (FAILED, 4));
        for (file, line) in files.iter().zip(out.lines()) {
            assert!(line.starts_with(&format!("{}: ", file.display())), "{line}");
        }
        let last = "\n3 files: 1 passed, 1 refused, 1 not read: do not clear the disk\n";
        assert!(out.ends_with(last), "{out}");
    }
}

/// Files of more pieces than there are rows at first are audited again, with as many rows as it takes.
#[test]
fn sizes_its_tables() {
    let mut rng = Rng::new(300);
    let small = plan_of(&mut rng, 3_000, 10, true).build().bytes;
    let nested = nested::plan(&mut rng, 20_000, 0).build().bytes;
    for (name, file, pieces) in [("audit_small.root", small, 3_000), ("audit_nested.root", nested, 20_000)] {
        assert!(first_room(file.len()) < pieces, "{name} needs no second audit");
        let path = store(name, &file);
        let (status, out, _) = rootaudit(&[OsStr::new("--rows"), path.as_os_str()]);
        let expected = format!("{}: {}", path.display(), printed(&file, pieces));
        assert!((status, &out) == (PASSED, &expected), "{}", &out[..200]);
    }
}

/// What the second program finds, as `rootmap` prints it, with the keys of records.
fn printed(file: &[u8], pieces: usize) -> String {
    let (answer, rows) = audit::audit(file, pieces);
    assert_eq!((answer.number, rows.len()), (0, pieces));
    let ends = rows.iter().skip(1).map(|row| row.start).chain([file.len() as u64]);
    let lines = rows.iter().zip(ends).map(|(row, end)| {
        let part = part::NAMES[row.part as usize];
        format!("{} {} {part} {}{}\n", row.start, end - row.start, row.owner, key_of(file, row))
    });
    format!("passed {pieces}\n{}", lines.collect::<String>())
}

/// Class, name and cycle of a record.
fn key_of(file: &[u8], row: &audit::Row) -> String {
    if row.part == part::GAP {
        return String::new();
    }
    let key = key::read_key(file, row.start as usize).unwrap();
    let [class, name] = [key.class, key.name].map(|range| escape::text(&file[range]));
    format!("\t{class}\t{name};{}", key.cycle)
}
