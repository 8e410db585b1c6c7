//! The line on a terminal while audits take long.

use kit::gen::one_root;
use kit::harness::command::{folder, line, PASSED};
use kit::harness::strike::{named_pipe, struck};
use programs::ffi::Answer;
use programs::rootaudit::progress::{amount, fitted, lasting, State};
use programs::rootaudit::reach::{reached, Reach};
use programs::rootaudit::shared::{Shared, Step};
use std::ffi::{c_char, c_int, CStr, OsStr};
use std::fs::{self, File, OpenOptions};
use std::io::Read;
use std::os::fd::{AsRawFd, FromRawFd};
use std::os::unix::ffi::OsStrExt;
use std::path::Path;
use std::process::{Child, Stdio};
use std::time::Duration;
use std::{iter, thread};

#[test]
fn texts() {
    let state = |done, seconds| State {
        file: 3,
        name: "run3.root",
        files: 19,
        done,
        all: 40_000_000_000,
        time: Duration::from_secs(seconds),
    };
    for (done, seconds, text) in [
        (0, 1, "file 3 of 19: 0 %, 1 s: run3.root"),
        (10_000_000_000, 50, "file 3 of 19: 25 %, 200 MB/s, 2 min left: run3.root"),
        (39_000_000_000, 39, "file 3 of 19: 97 %, 1.0 GB/s, 1 s left: run3.root"),
        (40_000_000_000, 40, "file 3 of 19: 99 %, 1.0 GB/s, 0 s left: run3.root"),
        (1, 100, "file 3 of 19: 0 %, 0 bytes/s, days left: run3.root"),
    ] {
        assert_eq!(state(done, seconds).text(None), text);
    }
    let empty = State { all: 0, ..state(0, 2) };
    assert_eq!(empty.text(None), "file 3 of 19: 0 %, 2 s: run3.root");
}

/// No line is wider than a terminal.
#[test]
fn long_names() {
    for name in ["x".repeat(500), "\u{540d}".repeat(500), "a".into(), String::new()] {
        let state =
            State { file: 1, name: &name, files: 20_000, done: 5, all: 1 << 50, time: Duration::from_secs(1000) };
        let columns: usize = state.text(None).chars().map(|c| if c.is_ascii() { 1 } else { 2 }).sum();
        assert!(columns <= 79, "{}", state.text(None));
        for width in [1, 20, 40, 45, 50, 60, 200] {
            let columns: usize = state.text(Some(width)).chars().map(|c| if c.is_ascii() { 1 } else { 2 }).sum();
            assert!(columns < width, "{width}: {}", state.text(Some(width)));
        }
    }
    for (name, columns, text) in [
        ("night.root", 10, "night.root"),
        ("night.root", 9, "...t.root"),
        ("night.root", 3, "..."),
        ("\u{540d}\u{524d}", 4, "\u{540d}\u{524d}"),
        ("x\u{540d}\u{524d}", 4, "..."),
        ("xx\u{540d}\u{524d}", 5, "...\u{524d}"),
    ] {
        assert_eq!(fitted(name, columns), text);
    }
}

#[test]
fn amounts_and_times() {
    for (bytes, text) in [
        (0, "0 bytes"),
        (999, "999 bytes"),
        (1000, "1.0 kB"),
        (9_960, "10 kB"),
        (999_499, "999 kB"),
        (999_500, "1.0 MB"),
        (u64::MAX, "18 EB"),
    ] {
        assert_eq!(amount(bytes), text);
    }
    for (seconds, text) in [
        (0, "0 s"),
        (119, "119 s"),
        (120, "2 min"),
        (7199, "119 min"),
        (7200, "2 h 0 min"),
        (359_999, "99 h 59 min"),
        (360_000, "days"),
        (u64::MAX, "days"),
    ] {
        assert_eq!(lasting(Duration::from_secs(seconds)), text);
    }
}

/// The last start that is there.
#[test]
fn places() {
    for len in 0..20 {
        for there in 0..=len {
            let place = reached(len, |nth| if nth < there { 100 + 10 * nth as u64 } else { 0 });
            assert_eq!(place, if there == 0 { 0 } else { 90 + 10 * there as u64 });
        }
    }
}

/// The second thread sees how far an audit is that goes on until it has been seen, and another after it.
#[test]
fn an_audit_that_goes_on() {
    let gauge = Shared::new(1, 1).unwrap().gauge(0);
    let reach = Reach::new(gauge);
    for places in [&[100, 200, 300][..], &[100]] {
        let last = *places.last().unwrap();
        gauge.begin(Some(0));
        let audit = |_: &[u8], [start, ..]: [&mut [u64]; 3]| {
            start[..places.len()].copy_from_slice(places);
            while gauge.get(Step::Reached) != last {
                thread::yield_now();
            }
            Answer::success(last)
        };
        let mut tables = [[0; 10]; 3];
        assert_eq!(reach.audit(&audit, &[], tables.each_mut().map(|table| &mut table[..])), Answer::success(last));
    }
}

/// What is done of a file that has several steps. An audit that is made again undoes nothing.
#[test]
fn steps() {
    let shared = Shared::new(2, 2).unwrap();
    let under_way = |steps| shared.under_way(steps).collect::<Vec<_>>();
    assert_eq!(under_way(1), []);
    shared.gauge(1).begin(Some(1));
    for (step, bytes) in [(Step::Reached, 600), (Step::Fetched, 300), (Step::Reached, 60), (Step::Told, 30)] {
        shared.gauge(1).set(step, bytes);
    }
    assert_eq!((under_way(1), under_way(3)), (vec![(1, 930)], vec![(1, 310)]));
    shared.gauge(1).begin(Some(0));
    assert_eq!(under_way(2), [(0, 0)]);
}

/// Each file is taken once, and whose it is stays known.
#[test]
fn files_are_taken_once() {
    let shared = Shared::new(1000, 1).unwrap();
    let taken = &|number: u64| iter::from_fn(|| shared.claim(number)).collect::<Vec<usize>>();
    let mut all = thread::scope(|scope| {
        let threads = [1, 2, 3].map(|number| scope.spawn(move || (number, taken(number))));
        threads.map(|thread| thread.join().unwrap()).into_iter().collect::<Vec<_>>()
    });
    for (number, files) in &all {
        assert!(files.is_sorted() && files.iter().all(|&nth| shared.is_claimed(nth, *number)));
        assert_eq!(shared.claimed(0, *number), files.first().copied());
        assert_eq!(files.last().and_then(|last| shared.claimed(last + 1, *number)), None);
    }
    let mut files: Vec<usize> = all.iter_mut().flat_map(|(_, files)| files.drain(..)).collect();
    files.sort();
    assert!(files.into_iter().eq(0..1000) && shared.next() == 1000);
}

extern "C" {
    fn posix_openpt(flags: c_int) -> c_int;
    fn grantpt(terminal: c_int) -> c_int;
    fn unlockpt(terminal: c_int) -> c_int;
    fn ptsname_r(terminal: c_int, name: *mut c_char, len: usize) -> c_int;
}

const O_RDWR_NOCTTY_CLOEXEC: c_int = 0o2 | 0o400 | 0o2000000;

/// A terminal: where its text is read, and where it is written.
fn terminal() -> [File; 2] {
    // SAFETY: a new descriptor, that nothing else has; the name is written to an array of that length.
    unsafe {
        let terminal = File::from_raw_fd(posix_openpt(O_RDWR_NOCTTY_CLOEXEC));
        assert_eq!([grantpt(terminal.as_raw_fd()), unlockpt(terminal.as_raw_fd())], [0; 2]);
        let mut name = [0; 100];
        assert_eq!(ptsname_r(terminal.as_raw_fd(), name.as_mut_ptr(), name.len()), 0);
        let name = OsStr::from_bytes(CStr::from_ptr(name.as_ptr()).to_bytes());
        // It is never this process's own terminal.
        let end = OpenOptions::new().read(true).write(true).open(Path::new(name)).unwrap();
        [terminal, end]
    }
}

/// Reads until the text is there, or to the end.
fn read_until(terminal: &mut File, text: &str, words: &str) -> String {
    let mut text = text.to_owned();
    let mut bytes = [0; 1000];
    while words.is_empty() || !text.contains(words) {
        // When nobody can write to it any more, a terminal answers with an error.
        match terminal.read(&mut bytes) {
            Ok(len @ 1..) => text.push_str(&String::from_utf8_lossy(&bytes[..len])),
            _ => break,
        }
    }
    text
}

fn output(child: Child) -> (Option<i32>, String) {
    let output = child.wait_with_output().unwrap();
    (output.status.code(), String::from_utf8(output.stdout).unwrap())
}

/// The second of two files is held until the line has been seen; then it is cleared.
#[test]
fn on_a_terminal() {
    let folder = folder("progress_terminal");
    let files = ["a.root", "b.root"].map(|name| folder.join(name));
    for file in &files {
        fs::write(file, one_root()).unwrap();
    }
    let pipe = folder.join("pipe");
    named_pipe(&pipe);
    for options in [&[][..], &["-j", "2"], &["--quiet"], &["--read"]] {
        let [mut shown, end] = terminal();
        let mut command = struck(&files[1], "hold");
        command.env("STRIKE_PIPE", &pipe).args(options).args(&files).stdout(Stdio::piped()).stderr(end);
        let child = command.spawn().unwrap();
        drop(command);
        let text = read_until(&mut shown, "", "file 2 of 2: 50 %, ");
        drop(OpenOptions::new().write(true).open(&pipe).unwrap());
        let (status, out) = output(child);
        let last = "2 files: 2 passed, 0 refused, 0 not read: all passed\n";
        let lines = if options == ["--quiet"] {
            String::new()
        } else {
            files.each_ref().map(|file| line(file, "passed 5")).concat()
        };
        assert_eq!((status, out), (Some(PASSED), lines + last));
        let text = read_until(&mut shown, &text, "");
        assert!(text.contains("\rfile 2 of 2: 50 %, ") && text.ends_with("b.root\x1b[K\r\x1b[K"), "{text:?}");
    }
}

/// Where lines go to the same terminal, none is printed behind or into the line about progress.
#[test]
fn lines_on_the_same_terminal() {
    let folder = folder("progress_same");
    let path = folder.join("a.root");
    fs::write(&path, one_root()).unwrap();
    let pipe = folder.join("pipe");
    named_pipe(&pipe);
    let [mut shown, end] = terminal();
    let mut command = struck(&path, "hold");
    command.env("STRIKE_PIPE", &pipe).arg(&path).stdout(end.try_clone().unwrap()).stderr(end);
    let child = command.spawn().unwrap();
    drop(command);
    let text = read_until(&mut shown, "", "file 1 of 1: 0 %, ");
    drop(OpenOptions::new().write(true).open(&pipe).unwrap());
    assert_eq!(output(child).0, Some(PASSED));
    let text = read_until(&mut shown, &text, "");
    let line = line(&path, "passed 5").replace('\n', "\r\n");
    assert!(text.ends_with(&format!("a.root\x1b[K\r\x1b[K{line}")), "{text:?}");
}
