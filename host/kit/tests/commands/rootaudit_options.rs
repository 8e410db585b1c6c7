//! The options of the command rootaudit. No way to name files leaves one of them out with status 0.

use kit::gen::one_root;
use kit::harness::command::{folder, line, rootaudit, rootaudit_in, store, FAILED, PASSED, REFUSED};
use programs::rootaudit::about;
use std::ffi::OsStr;
use std::fs;
use std::os::unix::fs::symlink;

/// Nothing is audited, and standard error says how the command is used.
fn expect_usage((status, out, errors): kit::harness::command::Printed, arguments: &[&str]) {
    assert_eq!((status, out.as_str()), (FAILED, ""), "{arguments:?}");
    assert!(errors.contains("usage: rootaudit "), "{arguments:?}: {errors}");
}

#[test]
fn wrong_command_lines() {
    let wrong: [&[&str]; 39] = [
        &["--files0-from", "list", "a"],
        &["--files0-from", "list", "-r", "a"],
        &["--files0-from", "list", "--files0-from", "list"],
        &["--files0-from", "--rows"],
        &["--expect", "+1", "a"],
        &["--expect=+1", "a"],
        &["--expect=", "a"],
        &["--expect= 1", "a"],
        &["--expect", "18446744073709551616", "a"],
        &["--expect=1", "--expect", "1", "a"],
        &["--html=", "a"],
        &["--html=page", "a", "b"],
        &["--json=yes", "a"],
        &["-j", "0", "a"],
        &["-j0", "a"],
        &["-j=1", "a"],
        &["-j", "1025", "a"],
        &["-j", "a"],
        &["-j"],
        &["-j1", "-j2", "a"],
        &["-j", "+1", "a"],
        &["--help=a"],
        &["-hx"],
        &[],
        &["--row"],
        &["-x", "a"],
        &["--rows"],
        &["a", "--rows=1"],
        &["--"],
        &["--expect", "a"],
        &["--expect"],
        &["--expect", "-1", "a"],
        &["--expect", "1", "--expect", "1", "a"],
        &["--html"],
        &["--html", "--rows", "a"],
        &["--html", "page", "a", "b"],
        &["--html", ""],
        &["--json", "--quiet", "--read"],
        &["--quiet"],
    ];
    for arguments in wrong {
        expect_usage(rootaudit(arguments), arguments);
    }
}

/// The two ways to write a value.
#[test]
fn values() {
    let folder = folder("options_values");
    fs::write(folder.join("a.root"), one_root()).unwrap();
    let [alone, expected] =
        [&["a.root"][..], &["--expect", "1", "a.root"]].map(|arguments| rootaudit_in(&folder, arguments));
    assert_eq!((alone.0, expected.0), (PASSED, PASSED));
    assert_eq!(rootaudit_in(&folder, &["--expect=1", "a.root"]), expected);
    assert_eq!(rootaudit_in(&folder, &["--expect=007", "a.root"]).0, FAILED);
    for jobs in [&["-j", "1"][..], &["-j1"], &["-j", "1024"], &["-j04"]] {
        assert_eq!(rootaudit_in(&folder, &[jobs, &["a.root"]].concat()), alone, "{jobs:?}");
    }
    for (page, arguments) in [("p", &["--html=p", "a.root"][..]), ("-q", &["--html=-q", "a.root"])] {
        assert_eq!(rootaudit_in(&folder, arguments), alone);
        assert!(folder.join(page).is_file(), "{page}");
    }
}

/// How many at once reaches those who work.
#[test]
fn jobs() {
    use programs::rootaudit::options::{parse, Options, Request};
    for (arguments, jobs) in [(&["a"][..], 1), (&["-j", "3", "a"], 3), (&["-j1024", "a"], 1024)] {
        let files = vec!["a".into()];
        let expected = Request::Audit(Options { jobs, files, ..Options::default() });
        assert_eq!(parse(arguments.iter().map(Into::into)), expected);
    }
    assert_eq!(Options::default().jobs, 1);
}

/// Standard input is no file. One that is named so is.
#[test]
fn standard_input() {
    let folder = folder("options_input");
    fs::write(folder.join("a.root"), one_root()).unwrap();
    for arguments in [&["-"][..], &["-", "a.root"], &["a.root", "-"], &["--rows", "-"]] {
        let run = rootaudit_in(&folder, arguments);
        assert!(run.2.contains("standard input cannot be audited") && run.2.contains("./-"), "{}", run.2);
        expect_usage(run, arguments);
    }
    fs::write(folder.join("-"), one_root()).unwrap();
    expect_usage(rootaudit_in(&folder, &["-"]), &["-"]);
    for (arguments, name) in [(&["./-"][..], "./-"), (&["--", "-"], "-")] {
        assert_eq!(rootaudit_in(&folder, arguments), (PASSED, format!("{name}: passed 5\n"), String::new()));
    }
}

/// What a message advises helps.
#[test]
fn advice() {
    for name in ["--", "--rows", "--json", "--expect=1", "-j1", "-x"] {
        let folder = folder("options_advice");
        for file in [name, "a.root"] {
            fs::write(folder.join(file), one_root()).unwrap();
        }
        let run = rootaudit_in(&folder, &[name, "a.root"]);
        assert!(run.2.contains(" ./"), "{name}: {}", run.2);
        assert_eq!(run.2.contains("`--` before"), !["--", "-x"].contains(&name), "{name}: {}", run.2);
        expect_usage(run, &[name]);
        let here = format!("./{name}");
        // The option with the file, the file alone, and what `./*` names.
        let given: [&[&str]; 4] =
            [&[name, &here, "a.root"], &[&here], &[&here, "./a.root"], &["--", &here, "./a.root"]];
        for arguments in given.iter().skip(usize::from(name == "-x")).take(if name == "--" { 4 } else { 3 }) {
            let (status, out, errors) = rootaudit_in(&folder, arguments);
            let expected = if name == "--expect=1" && arguments[0] == name { FAILED } else { PASSED };
            assert_eq!((status, errors.as_str()), (expected, ""), "{arguments:?}");
            assert!(out.contains(name), "{out}");
        }
    }
    // A number that `*` may have named.
    let numbered = folder("options_advice_number");
    for file in ["1", "a.root"] {
        fs::write(numbered.join(file), one_root()).unwrap();
    }
    for option in ["-j", "--expect"] {
        let run = rootaudit_in(&numbered, &[option, "1", "a.root"]);
        assert!(run.2.contains("as --expect=19 does"), "{}", run.2);
        expect_usage(run, &[option]);
    }
    for arguments in [&["-j1", "a.root"][..], &["--expect=1", "a.root"], &["-j", "1", "./1", "a.root"], &["1"]] {
        assert_eq!(rootaudit_in(&numbered, arguments).0, PASSED, "{arguments:?}");
    }
    let folder = folder("options_advice_end");
    fs::write(folder.join("--"), one_root()).unwrap();
    assert!(rootaudit_in(&folder, &["--"]).2.contains("./-- for this one"));
}

/// `--help` and `--version` beside anything else would leave files out.
#[test]
fn help_and_version_stand_alone() {
    let folder = folder("options_alone");
    for name in ["a.root", "b.root"] {
        fs::write(folder.join(name), one_root()).unwrap();
    }
    for print in ["--help", "-h", "--version"] {
        let (status, out, errors) = rootaudit_in(&folder, &[print]);
        assert_eq!((status, errors.as_str()), (PASSED, ""), "{print}");
        assert!(out.contains("rootaudit"), "{print}: {out}");
        for arguments in [["a.root", "b.root", print], [print, "a.root", "b.root"], ["--rows", print, "a.root"]] {
            expect_usage(rootaudit_in(&folder, &arguments), &arguments);
        }
        expect_usage(rootaudit_in(&folder, &[print, print]), &[print]);
    }
}

/// A file whose name is an option, as `*` names it: it is never left out.
#[test]
fn files_named_like_options() {
    let flags = about::PROGRAM.options.iter().flat_map(|option| option.flags).copied();
    for name in flags.chain(["--expect=1", "--files0-from=-", "-j4", "-rd"]) {
        let folder = folder("options_star");
        fs::write(folder.join("a.root"), one_root()).unwrap();
        fs::write(folder.join(name), b"damaged").unwrap();
        // Options come before letters.
        for arguments in [vec![name, "a.root"], vec!["a.root", name], vec![name]] {
            expect_usage(rootaudit_in(&folder, &arguments), &arguments);
        }
        // After `--` it is a file, and beside itself an option.
        let (status, out, errors) = rootaudit_in(&folder, &["--", name, "a.root"]);
        assert_eq!((status, errors.as_str(), out.lines().count()), (REFUSED, "", 3), "{name}");
        assert!(out.starts_with(&format!("{name}: refused 1 at 0: ")), "{name}: {out}");
    }
    let folder = folder("options_both");
    fs::write(folder.join("--json"), b"damaged").unwrap();
    let (status, out, _) = rootaudit_in(&folder, &["--json", "--", "--json"]);
    assert_eq!(status, REFUSED);
    assert!(out.starts_with("{\"name\":\"--json\",\"verdict\":\"refused\""), "{out}");
    // A link that leads nowhere is a name too.
    symlink("nowhere", folder.join("--rows")).unwrap();
    fs::write(folder.join("a.root"), one_root()).unwrap();
    expect_usage(rootaudit_in(&folder, &["--rows", "a.root"]), &["--rows", "a.root"]);
}

#[test]
fn options_and_files_in_any_order() {
    let path = store("options_order.root", &one_root());
    let [rows, end] = ["--rows", "--"].map(OsStr::new);
    assert_eq!(rootaudit(&[path.as_os_str(), rows]), rootaudit(&[rows, path.as_os_str()]));
    assert_eq!(rootaudit(&[path.as_os_str(), rows]).1.lines().count(), 6);
    let (status, out, errors) = rootaudit(&[end, OsStr::new("--rows"), path.as_os_str()]);
    assert_eq!((status, errors.as_str(), out.lines().count()), (FAILED, "", 3));
    assert!(out.starts_with("--rows: could not be read: ") && out.contains(&line(&path, "passed 5")), "{out}");
}

/// A missing night, and one that is named twice in its place.
#[test]
fn expect() {
    let folder = folder("options_expect");
    for name in ["a.root", "b.root"] {
        fs::write(folder.join(name), one_root()).unwrap();
    }
    symlink("a.root", folder.join("c.root")).unwrap();
    let last = |arguments: &[&str]| {
        let (status, out, errors) = rootaudit_in(&folder, arguments);
        assert_eq!(errors, "");
        (status, out.lines().last().unwrap().to_owned())
    };
    let passed = "2 files: 2 passed, 0 refused, 0 not read";
    let bad = "do not clear the disk";
    assert_eq!(last(&["--expect", "2", "a.root", "b.root"]), (PASSED, format!("{passed}; 2 expected: all passed")));
    assert_eq!(last(&["--expect", "3", "a.root", "b.root"]), (FAILED, format!("{passed}; 3 expected: {bad}")));
    assert_eq!(last(&["--expect", "1", "a.root", "b.root"]), (FAILED, format!("{passed}; 1 expected: {bad}")));
    for twice in [["--expect", "2", "a.root", "a.root"], ["--expect", "2", "a.root", "c.root"]] {
        let words = format!("{passed}; 1 named more than once; 2 expected: {bad}");
        assert_eq!(last(&twice), (FAILED, words));
    }
    let one = "1 file: 1 passed, 0 refused, 0 not read; 1 expected: all passed";
    assert_eq!(last(&["--expect", "1", "a.root"]), (PASSED, one.into()));
    assert_eq!(last(&["--expect", "0", "a.root"]).0, FAILED);
}

/// Only what is no pass, and the last line, which is there for one file too.
#[test]
fn quiet() {
    let folder = folder("options_quiet");
    fs::write(folder.join("a.root"), one_root()).unwrap();
    fs::write(folder.join("b.root"), b"damaged").unwrap();
    let (status, out, _) = rootaudit_in(&folder, &["--quiet", "--rows", "a.root"]);
    assert_eq!((status, out.as_str()), (PASSED, "1 file: 1 passed, 0 refused, 0 not read: all passed\n"));
    let (status, out, _) = rootaudit_in(&folder, &["--quiet", "a.root", "b.root", "c.root"]);
    let lines: Vec<&str> = out.lines().collect();
    assert_eq!((status, lines.len()), (FAILED, 3));
    assert!(lines[0].starts_with("b.root: refused 1 ") && lines[1].starts_with("c.root: could not be read: "), "{out}");
    assert_eq!(lines[2], "3 files: 1 passed, 1 refused, 1 not read: do not clear the disk");
}

#[test]
fn help() {
    let (_, help, _) = rootaudit(&["--help"]);
    assert!(help.contains("Only `passed` is a pass") && help.contains("do not clear the disk"));
    assert!(help.contains("no checksum") && help.contains("rootaudit -- *.root"));
    assert!(help.contains("without `--read` they need not be fetched"));
    for option in ["--rows", "--json", "--quiet", "--expect N", "--read", "--html PAGE", "-j N", "-r DIR", "--version"]
    {
        assert!(help.contains(&format!("\n  {option} ")), "{option}");
    }
}

/// Version, requests, commit and toolchain, a line each.
#[test]
fn version() {
    let (_, out, _) = rootaudit(&["--version"]);
    let lines: Vec<&str> = out.lines().collect();
    assert_eq!(lines[0], format!("rootaudit {}", env!("CARGO_PKG_VERSION")));
    assert_eq!(lines[1], "requests: 01, 02, 04");
    for (line, label) in lines[2..].iter().zip(["commit: ", "toolchain: "]) {
        assert!(line.strip_prefix(label).is_some_and(|rest| !rest.is_empty()), "{line}");
    }
    assert_eq!(lines.len(), 4);
}
