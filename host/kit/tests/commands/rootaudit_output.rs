//! Output that does not reach its end is status 2, whatever the files are.

use kit::gen::one_root;
use kit::harness::command::{folder, printed, shell, store, FAILED, PASSED, ROOTAUDIT, ROOTKEYS};
use kit::harness::strike::named_pipe;
use std::fs::{self, File};
use std::io::Read;
use std::os::unix::fs::{symlink, OpenOptionsExt};
use std::path::Path;
use std::process::Command;

/// That opening a pipe does not wait, on Linux.
const O_NONBLOCK: i32 = 0o4000;

/// Standard output closed, open for reading only, and full.
const LOST: [&str; 3] = [">&-", "1</dev/null", ">/dev/full"];

fn lost(how: &str, program: &str, argument: &Path) -> kit::harness::command::Printed {
    shell(&format!("exec \"$0\" \"$1\" {how}"), program, argument)
}

#[test]
fn lost_output() {
    let path = store("output_lost.root", &one_root());
    for program in [ROOTAUDIT, ROOTKEYS] {
        for how in LOST {
            for argument in [path.as_path(), Path::new("--help")] {
                let (status, out, errors) = lost(how, program, argument);
                assert_eq!((status, out.as_str()), (FAILED, ""), "{program} {argument:?} {how}");
                assert_eq!(errors.lines().count(), 1, "{program} {argument:?} {how}: {errors}");
            }
        }
    }
}

/// A pipe whose reader is gone before the command is begun. It has a name, and is opened by the shell alone, so that no
/// process of another test holds an end of it.
#[test]
fn nobody_reads() {
    let path = store("output_pipe.root", &one_root());
    let pipe = folder("output_pipe").join("pipe");
    assert!(Command::new("mkfifo").arg(&pipe).status().unwrap().success());
    let line = format!("exec 3<>'{0}' 4>'{0}' 3<&-; exec \"$0\" \"$1\" >&4 4>&-", pipe.display());
    for program in [ROOTAUDIT, ROOTKEYS] {
        let (status, _, errors) = shell(&line, program, &path);
        assert_eq!(status, FAILED);
        assert!(errors.contains("output: Broken pipe"), "{errors}");
    }
}

/// It is said why, once.
#[test]
fn why_it_is_lost() {
    let path = store("output_why.root", &one_root());
    let closed = "rootaudit: output: standard output is closed or cannot be written to, so nothing was done\n";
    let full = "rootaudit: output: No space left on device (os error 28)\n";
    for (how, why) in LOST.into_iter().zip([closed, closed, full]) {
        assert_eq!(lost(how, ROOTAUDIT, &path).2, why);
        assert_eq!(lost(how, ROOTAUDIT, Path::new("--version")).2, why);
    }
}

/// The output, or what is said of errors, would go into the file that is audited: the file stays as it is.
#[test]
fn output_into_the_file() {
    let path = store("output_into.root", &one_root());
    let link = folder("output_into").join("link.root");
    symlink(&path, &link).unwrap();
    let said = |path: &Path| {
        let name = path.display();
        format!("rootaudit: output: standard output is {name}, which is one of the files, so nothing was done\n")
    };
    for (line, name, errors) in [
        ("\"$0\" \"$1\" >> \"$1\"", &path, said(&path)),
        ("\"$0\" --quiet \"$1\" >> \"$1\"", &path, said(&path)),
        ("\"$0\" --json /dev/null \"$1\" /dev/null 1<> \"$1\"", &path, said(&path)),
        ("\"$0\" --quiet -j 2 /dev/null \"$1\" >> \"$1\"", &link, said(&link)),
        ("\"$0\" \"$1\" 2>> \"$1\"", &path, String::new()),
        ("\"$0\" /dev/null \"$1\" >> \"$1\" 2>&1", &link, String::new()),
        ("\"$0\" --wrong \"$1\" 2>> \"$1\"", &path, String::new()),
        ("\"$0\" \"$1\" >&- 2>> \"$1\"", &path, String::new()),
    ] {
        assert_eq!(shell(line, ROOTAUDIT, name), (FAILED, String::new(), errors), "{line}");
        assert_eq!(fs::read(&path).unwrap(), one_root(), "{line}");
    }
    // A file beside it is another.
    let (status, _, errors) = shell("\"$0\" \"$1\" >> \"$1.out\" 2>> \"$1.err\"", ROOTAUDIT, &path);
    assert_eq!((status, errors.as_str()), (PASSED, ""));
}

/// The same of a file that a folder or a list names, where the command line is wrong.
#[test]
fn errors_into_a_file_of_a_folder() {
    let folder = folder("output_folder");
    for name in ["d", "empty"] {
        fs::create_dir(folder.join(name)).unwrap();
    }
    let path = folder.join("d/x.root");
    fs::write(&path, one_root()).unwrap();
    fs::write(folder.join("list"), "d/x.root\0").unwrap();
    for line in [
        "\"$0\" -r d --expect 2>> d/x.root",
        "\"$0\" -r d >&- 2>> d/x.root",
        "\"$0\" -r d -r empty 2>> d/x.root",
        "\"$0\" -r d 2>> d/x.root",
        "\"$0\" --files0-from=list other 2<> d/x.root",
        "\"$0\" --files0-from=list >> d/x.root 2>&1",
    ] {
        let run = Command::new("sh").args(["-c", line, ROOTAUDIT]).current_dir(&folder).output().unwrap();
        assert_eq!(printed(run), (FAILED, String::new(), String::new()), "{line}");
        assert_eq!(fs::read(&path).unwrap(), one_root(), "{line}");
    }
}

/// `rootkeys` writes into none of its files either.
#[test]
fn a_list_into_the_file() {
    let path = store("output_list.root", &one_root());
    for line in [
        "\"$0\" \"$1\" >> \"$1\"",
        "\"$0\" --json /dev/null \"$1\" 1<> \"$1\"",
        "\"$0\" /dev/null \"$1\" 2>> \"$1\"",
        "\"$0\" --wrong \"$1\" 2>> \"$1\"",
        "\"$0\" \"$1\" >&- 2>> \"$1\"",
    ] {
        let (status, out, _) = shell(line, ROOTKEYS, &path);
        assert_eq!((status, out.as_str()), (FAILED, ""), "{line}");
        assert_eq!(fs::read(&path).unwrap(), one_root(), "{line}");
    }
}

/// Behind the command no process of it has a file open: a disk can be taken off at once.
#[test]
fn nothing_is_open_behind_it() {
    let path = store("output_open.root", &one_root());
    let pipe = path.with_extension("pipe");
    let _ = fs::remove_file(&pipe);
    named_pipe(&pipe);
    for jobs in ["", "-j 3"] {
        let mut reader = File::options().read(true).custom_flags(O_NONBLOCK).open(&pipe).unwrap();
        let line = format!("\"$0\" {jobs} \"$1\" \"$1\" \"$1\" 9> '{}'", pipe.display());
        assert_eq!(shell(&line, ROOTAUDIT, &path).0, PASSED);
        // Whoever had descriptor 9 is gone: the pipe is at its end.
        assert_eq!(reader.read(&mut [0; 1]).unwrap(), 0);
    }
}

/// Other outputs are good, however they were opened, and so is a closed input or a closed standard error.
#[test]
fn output_that_is_taken() {
    let path = store("output_taken.root", &one_root());
    for how in [">/dev/null", "1<>/dev/null", ">>/dev/null", "| cat", "<&-", "2>&-", "<&- 2>&-"] {
        let (status, _, errors) = shell(&format!("\"$0\" \"$1\" {how}"), ROOTAUDIT, &path);
        assert_eq!((status, errors.as_str()), (PASSED, ""), "{how}");
    }
}
