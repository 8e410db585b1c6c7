//! The page appears when all is known, whole or not at all, and never in the place of another file.

use kit::gen::one_root;
use kit::harness::command::{folder, line, shell, FAILED, PASSED, ROOTAUDIT};
use programs::rootaudit::{library, newfile, run, Console};
use std::ffi::OsString;
use std::fs::{self, OpenOptions};
use std::io::{self, Write};
use std::path::{Path, PathBuf};

/// Standard output at which something is done before the first line is taken.
struct Output<F: FnMut()> {
    text: Vec<u8>,
    act: F,
}

impl<F: FnMut()> Write for Output<F> {
    fn write(&mut self, bytes: &[u8]) -> io::Result<usize> {
        if self.text.is_empty() {
            (self.act)();
        }
        self.text.extend(bytes);
        Ok(bytes.len())
    }
    fn flush(&mut self) -> io::Result<()> {
        Ok(())
    }
}

/// A file in a folder of its own, and a page that is not there yet.
fn file_and_page(name: &str) -> (PathBuf, PathBuf) {
    let folder = folder(name);
    let path = folder.join("a.root");
    fs::write(&path, one_root()).unwrap();
    (path, folder.join("page.html"))
}

fn names(path: &Path) -> Vec<OsString> {
    let mut names: Vec<_> =
        fs::read_dir(path.parent().unwrap()).unwrap().map(|entry| entry.unwrap().file_name()).collect();
    names.sort();
    names
}

/// The command with a page: its exit status and what it prints. `act` is done when the file's line is printed.
fn rootaudit(path: &Path, page: &Path, act: impl FnMut()) -> (u8, String, String) {
    let (mut out, mut errors) = (Output { text: Vec::new(), act }, Vec::new());
    let mut console = Console { out: &mut out, errors: &mut errors, terminal: None };
    let status = run(["--html".into(), OsString::from(page), path.into()], &library, &mut console);
    let [out, errors] = [out.text, errors].map(|text| String::from_utf8(text).unwrap());
    (status, out, errors)
}

/// No green page beside a status that is no pass: an output that is lost has none, and where another number of files was
/// expected the page says so.
#[test]
fn a_pass_that_is_not_the_commands() {
    let (path, page) = file_and_page("newpage_status");
    let html = format!("--html={}", page.display());
    for line in [format!("\"$0\" '{html}' \"$1\" > /dev/full"), format!("\"$0\" '{html}' --quiet \"$1\" > /dev/full")] {
        assert_eq!((shell(&line, ROOTAUDIT, &path).0, names(&path)), (FAILED, vec!["a.root".into()]), "{line}");
    }
    let (status, out, _) = shell(&format!("\"$0\" '{html}' --expect=2 \"$1\""), ROOTAUDIT, &path);
    let text = fs::read_to_string(&page).unwrap();
    assert!(status == FAILED && out.contains(": passed 5\n"), "{out}");
    assert!(text.contains("NOT AUDITED") && text.contains("2 expected") && !text.contains("PASSED"), "{text}");
}

/// While the file's line is printed there is no page yet; at the end there is nothing else.
#[test]
fn at_the_end() {
    let (path, page) = file_and_page("newpage_end");
    let (status, _, _) = rootaudit(&path, &page, || assert_eq!(names(&path), ["a.root"]));
    assert_eq!((i32::from(status), names(&path)), (PASSED, vec!["a.root".into(), "page.html".into()]));
    assert!(fs::read_to_string(&page).unwrap().contains("PASSED: 5 pieces"));
}

/// The file is changed after its line was printed: the page has no pass either.
#[test]
fn a_pass_that_is_taken_back() {
    let (path, page) = file_and_page("newpage_late");
    let change = || OpenOptions::new().append(true).open(&path).unwrap().write_all(b"more").unwrap();
    let (status, out, _) = rootaudit(&path, &page, change);
    let words = "no pass any more: it was changed, replaced or removed after it was audited";
    assert_eq!((i32::from(status), out), (FAILED, line(&path, "passed 5") + &line(&path, words)));
    let page = fs::read_to_string(&page).unwrap();
    assert!(page.contains("NOT AUDITED") && page.contains(words), "{page}");
    assert!(!page.contains("PASSED") && !page.contains("class=\"good\"") && page.contains("<title>NO PASS"), "{page}");
}

/// Another file has taken the page's name meanwhile: it stays.
#[test]
fn another_file_of_that_name() {
    let (path, page) = file_and_page("newpage_other");
    let (status, _, errors) = rootaudit(&path, &page, || fs::write(&page, b"other").unwrap());
    let words = "rootaudit: output: the page: File exists (os error 17)\n";
    assert_eq!((i32::from(status), errors.as_str()), (FAILED, words));
    assert_eq!((fs::read(&page).unwrap(), names(&path).len()), (b"other".to_vec(), 2));
}

/// It is there before: that is said before the audit.
#[test]
fn a_page_that_is_there() {
    let (path, page) = file_and_page("newpage_there");
    fs::write(&page, b"other").unwrap();
    let (status, out, errors) = rootaudit(&path, &page, || ());
    let words = "rootaudit: output: the page: File exists (os error 17)\n";
    assert_eq!((i32::from(status), out.as_str(), errors.as_str()), (FAILED, "", words));
    assert_eq!(fs::read(&page).unwrap(), b"other");
}

/// No room for it, as on a full disk: nothing is left of it.
#[test]
fn a_page_too_large() {
    let (path, page) = file_and_page("newpage_full");
    let line = format!("ulimit -f 1; exec \"$0\" --html '{}' -- \"$1\"", page.display());
    let (status, _, errors) = shell(&line, ROOTAUDIT, &path);
    assert_eq!((status, errors.as_str()), (FAILED, "rootaudit: output: the page: File too large (os error 27)\n"));
    assert_eq!(names(&path), ["a.root"]);
}

/// A name beside it in the same folder, whatever the page is called, and an old one that was left behind.
#[test]
fn names_of_pages() {
    let folder = folder("newpage_names");
    let path = folder.join("x".repeat(255));
    fs::write(folder.join(format!(".rootaudit-{}-0.part", std::process::id())), b"old").unwrap();
    newfile::check(path.as_os_str()).unwrap();
    newfile::write(path.as_os_str(), b"new").unwrap();
    assert_eq!((fs::read(&path).unwrap(), names(&path).len()), (b"new".to_vec(), 2));
    let error = newfile::write(path.as_os_str(), b"newer").unwrap_err();
    assert_eq!((error.kind(), fs::read(&path).unwrap()), (io::ErrorKind::AlreadyExists, b"new".to_vec()));
    let nowhere = folder.join("none/page.html");
    for done in [newfile::check(nowhere.as_os_str()), newfile::write(nowhere.as_os_str(), b"new")] {
        assert_eq!(done.unwrap_err().kind(), io::ErrorKind::NotFound);
    }
}
