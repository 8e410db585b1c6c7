//! The names of all files, from a list and below folders: nothing is left out unseen.

use kit::gen::one_root;
use kit::harness::command::{folder, printed, rootaudit_in, Printed, FAILED, PASSED, REFUSED, ROOTAUDIT};
use std::fs;
use std::io::Write;
use std::os::unix::fs::symlink;
use std::path::{Path, PathBuf};
use std::process::{Command, Stdio};

/// A folder with these good files in it.
fn with_files(name: &str, files: &[&str]) -> PathBuf {
    let folder = folder(name);
    for file in files {
        let path = folder.join(file);
        fs::create_dir_all(path.parent().unwrap()).unwrap();
        fs::write(path, one_root()).unwrap();
    }
    folder
}

/// The names of the lines, without the last line.
fn names(out: &str) -> Vec<&str> {
    let lines: Vec<&str> = out.lines().filter(|line| !line.contains(" not read")).collect();
    lines.into_iter().map(|line| line.split_once(": ").unwrap().0).collect()
}

/// Nothing is audited, and standard error says why.
fn expect_wrong((status, out, errors): Printed, why: &str) {
    assert_eq!((status, out.as_str()), (FAILED, ""), "{why}: {errors}");
    assert!(errors.starts_with("rootaudit: ") && errors.contains(why), "{why}: {errors}");
}

/// The command with a list on standard input.
fn with_input(folder: &Path, arguments: &[&str], input: &[u8]) -> Printed {
    let mut command = Command::new(ROOTAUDIT);
    command.args(arguments).current_dir(folder).stdin(Stdio::piped()).stdout(Stdio::piped()).stderr(Stdio::piped());
    let mut child = command.spawn().unwrap();
    child.stdin.take().unwrap().write_all(input).unwrap();
    printed(child.wait_with_output().unwrap())
}

#[test]
fn a_list() {
    let folder = with_files("named_list", &["b.root", "a b\n.root", "-", "--rows"]);
    for list in [&b"b.root\0a b\n.root\0-\0--rows"[..], b"b.root\0a b\n.root\0-\0--rows\0"] {
        fs::write(folder.join("list"), list).unwrap();
        let given: [&[&str]; 2] = [&["--files0-from", "list"], &["--files0-from=list"]];
        for arguments in given {
            let (status, out, errors) = rootaudit_in(&folder, &[arguments, &["--expect", "4"]].concat());
            assert_eq!((status, errors.as_str()), (PASSED, ""));
            assert_eq!(names(&out), ["b.root", "a b\\n.root", "-", "--rows"]);
            assert!(out.ends_with("4 files: 4 passed, 0 refused, 0 not read; 4 expected: all passed\n"), "{out}");
        }
        let read = with_input(&folder, &["--files0-from", "-"], list);
        assert_eq!((read.0, names(&read.1).len(), read.2.as_str()), (PASSED, 4, ""));
    }
    // A name that is no file is no pass, and a line feed ends none.
    let (status, out, _) = with_input(&folder, &["--files0-from", "-"], b"b.root\0c.root\0");
    assert_eq!(status, FAILED);
    assert!(out.contains("c.root: could not be read: "), "{out}");
    let (status, out, _) = with_input(&folder, &["--files0-from", "-"], b"b.root\n-\n");
    assert_eq!((status, out.lines().count(), out.starts_with("b.root\\n-\\n: could not be read: ")), (FAILED, 1, true));
}

#[test]
fn wrong_lists() {
    let folder = with_files("named_wrong", &["a.root"]);
    let from = ["--files0-from", "-"];
    expect_wrong(with_input(&folder, &from, b""), "no file is named: the list \"-\" is empty");
    expect_wrong(with_input(&folder, &from, b"\0"), "name 1 of the list \"-\" is empty");
    expect_wrong(with_input(&folder, &from, b"a.root\0\0"), "name 2 of the list \"-\" is empty");
    expect_wrong(with_input(&folder, &from, b"a.root\0\0a.root"), "name 2 of the list \"-\" is empty");
    for missing in ["nothing", "."] {
        expect_wrong(rootaudit_in(&folder, &["--files0-from", missing]), "could not be read");
    }
    for besides in [&["a.root"][..], &["--", "a.root"], &["-r", "."]] {
        expect_wrong(with_input(&folder, &[&from, besides].concat(), b""), "besides");
    }
    let page = ["--html", "page", "--files0-from", "-"];
    expect_wrong(with_input(&folder, &page, b"a.root\0a.root"), "--html is for one file");
    assert!(!folder.join("page").exists());
    assert_eq!(with_input(&folder, &page, b"a.root\0").0, PASSED);
    assert!(folder.join("page").exists());
}

/// More names than any command line takes.
#[test]
fn no_list_is_too_long() {
    let folder = folder("named_long");
    let files: Vec<String> = (0..1600).map(|nth| format!("{nth}.root")).collect();
    let long: Vec<String> = files.iter().map(|file| "./".repeat(2000) + file).collect();
    for file in &files {
        fs::write(folder.join(file), one_root()).unwrap();
    }
    assert!(Command::new(ROOTAUDIT).args(&long).current_dir(&folder).output().is_err(), "a command line takes it");
    let list = long.join("\0");
    let (status, out, _) = with_input(&folder, &["--quiet", "--expect", "1600", "--files0-from", "-"], list.as_bytes());
    assert_eq!((status, out.lines().count()), (PASSED, 1));
    fs::remove_file(folder.join("1599.root")).unwrap();
    let (status, out, _) = with_input(&folder, &["--quiet", "--expect", "1600", "--files0-from", "-"], list.as_bytes());
    assert_eq!((status, out.lines().count()), (FAILED, 2));
}

/// Every file, whatever its name, in the order of the bytes of the paths.
#[test]
fn below_a_folder() {
    let files = ["d/b/c.root", "d/b/a.txt", "d/b-c.root", "d/B.root", "d/.hidden/x", "d/--rows", "d/b.root"];
    let folder = with_files("named_below", &files);
    let mut sorted = files;
    sorted.sort();
    let given: [&[&str]; 4] = [&["-r", "d"], &["-rd"], &["-r", "d/"], &["-r", "nowhere/../d"]];
    for arguments in &given[..3] {
        let (status, out, errors) = rootaudit_in(&folder, &[arguments, &["--expect", "7"][..]].concat());
        assert_eq!((status, errors.as_str(), names(&out)), (PASSED, "", sorted.to_vec()), "{arguments:?}");
    }
    assert_eq!(rootaudit_in(&folder, given[3]).0, FAILED);
    // What is no ROOT file is no pass.
    fs::write(folder.join("d/b/notes.txt"), "notes").unwrap();
    let (status, out, _) = rootaudit_in(&folder, &["-r", "d"]);
    assert_eq!((status, names(&out).len()), (REFUSED, 8));
    assert!(out.contains("\nd/b/notes.txt: refused 1 at 0: "), "{out}");
}

/// Files that are named go first, then the folders in turn; a file in two ways counts once.
#[test]
fn folders_and_files() {
    let folder = with_files("named_both", &["x/1.root", "y/2.root", "a.root", "z.root"]);
    let (status, out, _) = rootaudit_in(&folder, &["z.root", "-r", "y", "--expect=4", "-r", "x", "--", "a.root"]);
    assert_eq!((status, names(&out)), (PASSED, vec!["z.root", "a.root", "y/2.root", "x/1.root"]));
    let (status, out, _) = rootaudit_in(&folder, &["--expect", "2", "-r", "x", "x/1.root"]);
    assert_eq!((status, out.contains("1 named more than once")), (FAILED, true));
    expect_wrong(rootaudit_in(&folder, &["--html", "page", "-r", "x", "a.root"]), "--html is for one file");
    assert_eq!(rootaudit_in(&folder, &["--html", "page", "-r", "x"]).0, PASSED);
}

/// A folder without a file is no pass, beside good ones too; what is no folder stands for itself.
#[test]
fn folders_that_are_none() {
    let folder = with_files("named_none", &["x/1.root", "a.root"]);
    fs::create_dir_all(folder.join("empty/deep/er")).unwrap();
    for arguments in [&["-r", "empty"][..], &["-r", "x", "-r", "empty"], &["-r", "empty", "a.root"]] {
        expect_wrong(rootaudit_in(&folder, arguments), "no file is below \"empty\"");
    }
    assert_eq!(rootaudit_in(&folder, &["-r", "a.root"]), (PASSED, "a.root: passed 5\n".into(), String::new()));
    let (status, out, _) = rootaudit_in(&folder, &["-r", "nothing"]);
    assert_eq!((status, out.starts_with("nothing: could not be read: ")), (FAILED, true));
    for wrong in [&["-r"][..], &["-r", ""], &["-r", "--rows"]] {
        expect_wrong(rootaudit_in(&folder, wrong), "-r wants a folder");
    }
}

/// A link to a file is audited. One to a folder is not followed, so that there is an end, and is told of.
#[test]
fn links() {
    let folder = with_files("named_links", &["d/a.root", "other/b.root"]);
    symlink("../other/b.root", folder.join("d/link.root")).unwrap();
    let (status, out, _) = rootaudit_in(&folder, &["--expect", "2", "-r", "d"]);
    assert_eq!((status, names(&out)), (PASSED, vec!["d/a.root", "d/link.root"]));
    for target in [".", "..", "../other", "nowhere", "loop"] {
        symlink(target, folder.join("d/loop")).unwrap();
        let (status, out, _) = rootaudit_in(&folder, &["-r", "d"]);
        assert_eq!((status, names(&out)), (FAILED, vec!["d/a.root", "d/link.root", "d/loop"]), "{target}");
        assert!(out.contains("\nd/loop: could not be read: "), "{out}");
        fs::remove_file(folder.join("d/loop")).unwrap();
    }
    // A folder that is named by a link is looked into.
    symlink("d", folder.join("to_d")).unwrap();
    let (status, out, _) = rootaudit_in(&folder, &["-r", "to_d"]);
    assert_eq!((status, names(&out)), (PASSED, vec!["to_d/a.root", "to_d/link.root"]));
}

#[test]
fn pipes() {
    let folder = with_files("named_pipe", &["d/a.root"]);
    assert!(Command::new("mkfifo").arg(folder.join("d/pipe")).status().unwrap().success());
    let (status, out, _) = rootaudit_in(&folder, &["-r", "d"]);
    assert_eq!((status, names(&out)), (FAILED, vec!["d/a.root", "d/pipe"]));
    assert!(out.contains("\nd/pipe: could not be read: it is no regular file\n"), "{out}");
}

/// A folder whose path is too long to be read, for any user.
#[test]
fn folders_that_cannot_be_read() {
    let folder = with_files("named_deep", &["d/a.root"]);
    let deep = ["x".repeat(200).as_str()].repeat(12).join("/");
    for name in ["d", "e"] {
        fs::create_dir_all(folder.join(name).join(&deep)).unwrap();
    }
    fs::write(folder.join("e").join(&deep).join("unseen.root"), "damaged").unwrap();
    fs::rename(folder.join("e"), folder.join("d").join(&deep).join("e")).unwrap();
    let (status, out, errors) = rootaudit_in(&folder, &["-r", "d"]);
    assert_eq!((status, errors.as_str(), out.lines().count()), (FAILED, "", 3), "{out}");
    assert!(out.lines().nth(1).unwrap().contains("xxx: could not be read: "), "{out}");
    assert!(out.ends_with("2 files: 1 passed, 0 refused, 1 not read: do not clear the disk\n"), "{out}");
    // Other programs could not copy it.
    fs::remove_dir_all(&folder).unwrap();
}

/// The same where no right allows it.
#[test]
fn folders_without_rights() {
    use std::os::unix::fs::PermissionsExt;
    let folder = with_files("named_rights", &["d/a.root", "d/locked/b.root"]);
    let locked = folder.join("d/locked");
    let rights = |mode| fs::set_permissions(&locked, fs::Permissions::from_mode(mode)).unwrap();
    rights(0o000);
    let is_read = fs::read_dir(&locked).is_ok();
    let (status, out, _) = rootaudit_in(&folder, &["-r", "d"]);
    rights(0o755);
    if is_read {
        println!("skipped: this user may read all folders");
        return;
    }
    assert_eq!((status, names(&out)), (FAILED, vec!["d/a.root", "d/locked"]));
}
