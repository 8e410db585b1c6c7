//! Files audited by several processes: what is printed is the same as by one, in the order of the names.

use kit::gen::files::plan_of;
use kit::gen::{one_root, Rng};
use kit::harness::command::{folder, rootaudit, Printed, FAILED};
use programs::rootaudit::message::{Frame, Message};
use programs::rootaudit::stamp::Stamp;
use programs::rootaudit::tally::Tally;
use programs::rootaudit::{library, run, Console};
use std::ffi::OsString;
use std::fs;

/// Passes, refusals, files of many rows and names without a file, in turn.
fn files(name: &str, count: usize) -> Vec<OsString> {
    let folder = folder(name);
    let many = plan_of(&mut Rng::new(11), 20_000, 10, true).build().bytes;
    let path = |nth: usize| {
        let path = folder.join(format!("{nth}.root"));
        match nth % 7 {
            0 => fs::write(&path, &one_root()[..300]).unwrap(),
            1 if nth % 3 == 0 => fs::write(&path, &many).unwrap(),
            2 => (),
            _ => fs::write(&path, one_root()).unwrap(),
        }
        path.into()
    };
    (0..count).map(path).collect()
}

/// What was printed, but for the times of the audits.
fn timeless((status, out, errors): Printed) -> Printed {
    let mut parts = out.split("\"time\":\"");
    let first = parts.next().unwrap_or_default().to_owned();
    let out = parts.fold(first, |out, part| out + part.split_once('"').unwrap().1);
    (status, out, errors)
}

#[test]
fn the_same_text() {
    let files = files("jobs_same", 120);
    for options in [&[][..], &["--rows"], &["--json"], &["--quiet", "--expect", "120"]] {
        let options: Vec<OsString> = options.iter().map(Into::into).collect();
        // In one process, one after the other.
        let (mut out, mut errors) = (Vec::new(), Vec::new());
        let mut console = Console { out: &mut out, errors: &mut errors, terminal: None };
        let arguments = [&options[..], &files].concat();
        let status = run(arguments.clone(), &library, &mut console);
        let expected = timeless((status.into(), String::from_utf8(out).unwrap(), String::new()));
        assert_eq!((expected.0, errors.len()), (FAILED, 0));
        assert!(timeless(rootaudit(&arguments)) == expected, "{options:?}");
        for jobs in ["1", "2", "3", "16", "1000"] {
            let arguments = [&["-j".into(), jobs.into()][..], &arguments].concat();
            assert!(timeless(rootaudit(&arguments)) == expected, "{options:?} {jobs}");
        }
    }
}

/// A message goes to another process and comes back as it was, whole or not at all.
#[test]
fn messages() {
    let stamp = Stamp::of(&fs::metadata(env!("CARGO_MANIFEST_DIR")).unwrap());
    let messages = [
        Message::Found { status: 0, stamp: Some(stamp), line: b"a: passed 5\n" },
        Message::Found { status: 2, stamp: None, line: b"" },
        Message::Page(b"<html>"),
        Message::Rows(b"100 68 head 0\n"),
        Message::Done,
        Message::Lost("why"),
    ];
    for (nth, message) in messages.into_iter().enumerate() {
        let mut bytes = Vec::new();
        Frame::new(nth, message).put(&mut bytes);
        let len = bytes.len();
        bytes.extend([7; 20]);
        let (frame, taken) = Frame::take(&bytes).unwrap();
        assert_eq!((frame.nth, taken, frame.message()), (nth, len, Some(message)));
        assert_eq!(frame.is_last(), nth >= 4);
        assert!((0..len).all(|len| Frame::take(&bytes[..len]).is_none()));
        // Bytes that are no message are none.
        for kind in 5..=255 {
            bytes[8] = kind;
            assert_eq!(Frame::take(&bytes).unwrap().0.message(), None);
        }
    }
}

/// Passes are no pass of all while a file that was named is not counted.
#[test]
fn a_file_that_is_not_counted() {
    let mut tally = Tally::new(2, None);
    tally.add(0, None);
    assert_eq!(
        (tally.status(), tally.line().as_str()),
        (2, "1 file: 1 passed, 0 refused, 0 not read: do not clear the disk\n")
    );
    tally.add(0, None);
    assert_eq!((tally.status(), tally.line().as_str()), (0, "2 files: 2 passed, 0 refused, 0 not read: all passed\n"));
}
