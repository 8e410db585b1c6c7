//! A file that cannot be audited to its end, because it is cut short, its disk fails or its process is ended: it is no
//! pass, the status is 2, and the other files are audited all the same.

use kit::gen::files::plan_of;
use kit::gen::{one_root, Rng};
use kit::harness::command::{folder, line, printed, shell, store, Printed, FAILED, ROOTAUDIT};
use kit::harness::strike::{named_pipe, struck};
use std::fs::{self, OpenOptions};
use std::io::{BufRead, BufReader, Read, Write};
use std::path::{Path, PathBuf};
use std::process::{Child, Command, Stdio};

const CUT: &str = "could not be read: it was cut short while it was audited, or its disk failed";

/// Three files in a folder of this name; something befalls the second.
fn three(name: &str) -> [PathBuf; 3] {
    let folder = folder(name);
    ["a.root", "b.root", "c.root"].map(|name| {
        let path = folder.join(name);
        fs::write(&path, one_root()).unwrap();
        path
    })
}

fn audited(how: &str, options: &[&str], files: &[PathBuf; 3]) -> Printed {
    printed(struck(&files[1], how).args(options).args(files).output().unwrap())
}

/// What is printed where the second of three files has these words.
fn lines(files: &[PathBuf; 3], words: &str) -> String {
    let last = "3 files: 2 passed, 0 refused, 1 not read: do not clear the disk\n";
    line(&files[0], "passed 5") + &line(&files[1], words) + &line(&files[2], "passed 5") + last
}

#[test]
fn the_second_of_three_is_cut() {
    for jobs in ["1", "2", "3", "100"] {
        let files = three("fault_cut");
        let expected = lines(&files, CUT);
        assert_eq!(audited("cut", &["-j", jobs], &files), (FAILED, expected, String::new()), "{jobs}");
    }
}

#[test]
fn as_json_and_quiet() {
    let files = three("fault_json");
    let (status, out, _) = audited("cut", &["--json", "--quiet", "--expect", "3"], &files);
    let verdict = "\"verdict\":\"not read\",\"number\":null,\"place\":null,\"count\":null,\"bytes\":null,";
    let last = "{\"files\":3,\"passed\":2,\"refused\":0,\"not_read\":1,\"repeated\":0,\"expected\":3,";
    assert_eq!((status, out.lines().count()), (FAILED, 2), "{out}");
    assert!(out.contains(verdict) && out.contains(CUT) && out.lines().last().unwrap().starts_with(last), "{out}");
}

/// Each signal is named, and the next file is audited.
#[test]
fn processes_that_are_ended() {
    for (signal, name) in [("6", ", SIGABRT"), ("9", ", SIGKILL"), ("11", ", SIGSEGV"), ("15", ", SIGTERM"), ("10", "")]
    {
        let files = three("fault_signals");
        let words = format!("not audited: the process that audited it was ended by signal {signal}{name}");
        for jobs in ["1", "2"] {
            assert_eq!(audited(signal, &["-j", jobs], &files), (FAILED, lines(&files, &words), String::new()));
        }
    }
}

/// Every file ends its process.
#[test]
fn all_are_lost() {
    let files = three("fault_all");
    for path in &files[1..] {
        fs::remove_file(path).unwrap();
        fs::hard_link(&files[0], path).unwrap();
    }
    for jobs in ["1", "2"] {
        let (status, out, errors) = audited("9", &["-j", jobs], &files);
        let last = "3 files: 0 passed, 0 refused, 3 not read: do not clear the disk";
        assert_eq!((status, errors.as_str(), out.lines().last()), (FAILED, "", Some(last)));
        assert_eq!(out.matches("SIGKILL").count(), 3, "{out}");
    }
}

/// A process that ended and cannot be replaced: what is left is not audited.
#[test]
fn no_other_process() {
    let files = three("fault_forks");
    let output = struck(&files[1], "9").env("STRIKE_FORKS", "1").args(&files).output().unwrap();
    let (status, out, _) = printed(output);
    let killed = "not audited: the process that audited it was ended by signal 9, SIGKILL";
    let none = "not audited: no process could be started for it: Resource temporarily unavailable (os error 11)";
    let last = "3 files: 1 passed, 0 refused, 2 not read: do not clear the disk\n";
    let expected = line(&files[0], "passed 5") + &line(&files[1], killed) + &line(&files[2], none) + last;
    assert_eq!((status, out), (FAILED, expected));
}

/// There is none from the start: too few descriptors are left for its pipe.
#[test]
fn no_process_at_all() {
    let path = store("fault_none.root", &one_root());
    let (status, out, _) = shell("ulimit -n 4; exec \"$0\" \"$1\"", ROOTAUDIT, &path);
    let words = "not audited: no process could be started for it: Too many open files (os error 24)";
    assert_eq!((status, out), (FAILED, line(&path, words)));
}

/// The page of a file that is lost says so.
#[test]
fn the_page() {
    let files = three("fault_page");
    let page = files[0].with_file_name("page.html");
    let output = struck(&files[1], "cut").arg("--html").arg(&page).arg(&files[1]).output().unwrap();
    assert_eq!(printed(output), (FAILED, line(&files[1], CUT), String::new()));
    let page = fs::read_to_string(page).unwrap();
    assert!(page.contains("NOT AUDITED") && page.contains(CUT) && !page.contains("PASSED"), "{page}");
}

/// A command that ends takes with it the process that audits.
#[test]
fn nobody_is_left() {
    let files = three("fault_left");
    let pipe = files[0].with_file_name("pipe");
    named_pipe(&pipe);
    let mut command = struck(&files[1], "hold");
    command.env("STRIKE_SAYS", "").env("STRIKE_PIPE", &pipe).args(&files);
    let mut child = command.stdout(Stdio::null()).stderr(Stdio::piped()).spawn().unwrap();
    let mut errors = BufReader::new(child.stderr.take().unwrap());
    let mut held = String::new();
    errors.read_line(&mut held).unwrap();
    assert_eq!(held, "held\n");
    child.kill().unwrap();
    child.wait().unwrap();
    // Its end comes when the last process is gone.
    assert_eq!(errors.read_to_end(&mut Vec::new()).unwrap(), 0);
}

/// Processes that end one after the other while the first file is held: none of them leaves a descriptor open.
#[test]
fn many_end_ahead() {
    const FILES: usize = 40;
    let folder = folder("fault_ahead");
    let files: Vec<PathBuf> = (0..FILES).map(|nth| folder.join(format!("{nth:02}.root"))).collect();
    files.iter().for_each(|path| fs::write(path, one_root()).unwrap());
    let pipe = folder.join("pipe");
    named_pipe(&pipe);
    let mut command = struck(&files[0], "hold");
    command.env("STRIKE_PIPE", &pipe).env("STRIKE_OTHERS", "").args(["-j", "2"]).args(&files);
    let mut child = command.stdout(Stdio::piped()).stderr(Stdio::piped()).spawn().unwrap();
    let ended = BufReader::new(child.stderr.take().unwrap()).lines().take(FILES - 1);
    assert!(ended.map(Result::unwrap).eq(vec!["ended"; FILES - 1]));
    let open = fs::read_dir(format!("/proc/{}/fd", child.id())).unwrap().count();
    assert!(open < FILES / 2, "{open}");
    OpenOptions::new().write(true).open(&pipe).unwrap();
    let (status, out, _) = printed(child.wait_with_output().unwrap());
    let last = format!("{FILES} files: 1 passed, 0 refused, {} not read: do not clear the disk", FILES - 1);
    assert_eq!(
        (status, out.lines().next(), out.lines().last()),
        (FAILED, Some(line(&files[0], "passed 5").trim_end()), Some(&*last))
    );
    assert!(out.lines().zip(&files).all(|(line, path)| line.starts_with(path.to_str().unwrap())), "{out}");
}

/// More text of rows than the pipes between the processes hold.
const PIECES: usize = 100_000;

/// The command with rows, whose first line was read: nothing more is taken of it for now.
fn rows_begun(path: &Path, options: &[&str]) -> (Child, impl BufRead) {
    fs::write(path, plan_of(&mut Rng::new(7), PIECES, 10, true).build().bytes).unwrap();
    let mut command = Command::new(ROOTAUDIT);
    let mut child = command.arg("--rows").args(options).arg(path).stdout(Stdio::piped()).spawn().unwrap();
    let mut out = BufReader::new(child.stdout.take().unwrap());
    let mut first = String::new();
    out.read_line(&mut first).unwrap();
    assert_eq!(first, line(path, &format!("passed {PIECES}")));
    (child, out)
}

/// What comes behind the rows, and how many of them there are.
fn rest(mut child: Child, out: impl BufRead) -> (i32, usize, String) {
    let lines: Vec<String> = out.lines().map(Result::unwrap).collect();
    let rows = lines.iter().take_while(|line| line.starts_with(|c: char| c.is_ascii_digit())).count();
    (child.wait().unwrap().code().unwrap(), rows, lines[rows..].join("\n") + "\n")
}

/// Rows are printed as they are made: the file is cut after the first of them was read, so the last is never made.
#[test]
fn rows_of_a_file_that_is_cut() {
    let path = folder("fault_rows").join("a.root");
    let (child, out) = rows_begun(&path, &[]);
    OpenOptions::new().write(true).open(&path).unwrap().set_len(0).unwrap();
    let (status, rows, last) = rest(child, out);
    let words = "no pass any more: it was cut short while it was audited, or its disk failed";
    assert_eq!((status, last), (FAILED, line(&path, words)));
    assert!(0 < rows && rows < PIECES, "{rows}");
}

/// The same where all rows can still be made.
#[test]
fn rows_of_a_file_that_is_changed() {
    let path = folder("fault_rows_changed").join("a.root");
    let (child, out) = rows_begun(&path, &["-j", "2"]);
    OpenOptions::new().append(true).open(&path).unwrap().write_all(b"more").unwrap();
    let words = "no pass any more: it was changed, replaced or removed meanwhile";
    assert_eq!(rest(child, out), (FAILED, PIECES, line(&path, words)));
}
