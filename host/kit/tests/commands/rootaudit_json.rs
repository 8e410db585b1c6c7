//! What `--json` prints: a line a file, and with `--rows` a line a piece behind it.

use kit::gen::{nested, one_root, Rng};
use kit::harness::command::{folder, printed, rootaudit, rootaudit_in, store, FAILED, PASSED, REFUSED, ROOTAUDIT};
use kit::harness::json::{parse, Json};
use programs::rootaudit::facts::date;
use programs::rootaudit::json::string;
use std::ffi::OsStr;
use std::fs::{self, File};
use std::os::unix::ffi::OsStrExt;
use std::os::unix::fs::MetadataExt;
use std::path::Path;
use std::process::Command;
use std::time::{Duration, SystemTime, UNIX_EPOCH};

/// The fields of a file's line, in their order.
const FIELDS: &str =
    "name verdict number place count bytes words path modified changed time read fetched version first_end";

/// The lines without what differs from run to run.
fn lasting(out: &str) -> Vec<String> {
    let lasting = |line: &str| {
        let (before, rest) = line.split_once(",\"modified\":").unwrap_or((line, ""));
        let after = rest.split_once(",\"read\":").map_or(String::new(), |(_, after)| format!(",\"read\":{after}"));
        let (after, rest) = after.split_once(",\"version\":\"").unwrap_or((&after, ""));
        let rest = rest.split_once("\",").map_or(String::new(), |(_, rest)| format!(",{rest}"));
        format!("{before}{after}{rest}")
    };
    out.lines().map(lasting).collect()
}

const JSON: [&str; 4] = [
    r#"{"name":"a\\xff\\\\.root","verdict":"passed","number":0,"place":0,"count":5,"bytes":364,"words":"passed 5","path":null,"read":false,"fetched":false,"first_end":null}"#,
    r#"{"name":"b.root","verdict":"refused","number":5,"place":297,"count":0,"bytes":364,"words":"refused 5 at 297: no record and no gap of a possible size stands here; now: copy it again; if that is refused too, keep both and call an analyst","path":"b.root","read":false,"fetched":false,"first_end":null}"#,
    r#"{"name":"c.root","verdict":"not read","number":null,"place":null,"count":null,"bytes":null,"words":"could not be read: No such file or directory (os error 2)","path":"c.root","read":false,"fetched":false,"first_end":null}"#,
    r#"{"files":3,"passed":1,"refused":1,"not_read":1,"repeated":0,"expected":null,"words":"do not clear the disk"}"#,
];

const ROWS: [&str; 5] = [
    r#"{"row":0,"place":100,"size":68,"part":"head","owner":0,"class":"TFile","name":"a","cycle":1}"#,
    r#"{"row":1,"place":168,"size":50,"part":"listed","owner":100,"class":"TObjString","name":"x","cycle":1}"#,
    r#"{"row":2,"place":218,"size":79,"part":"keys","owner":100,"class":"TFile","name":"a","cycle":1}"#,
    r#"{"row":3,"place":297,"size":12,"part":"gap","owner":0}"#,
    r#"{"row":4,"place":309,"size":55,"part":"free","owner":0,"class":"TFile","name":"a","cycle":1}"#,
];

const NO_VERDICT: [&str; 3] = [
    r#"{"no_verdict":0,"place":100,"size":68,"part":"record","class":"TFile","name":"a","cycle":1}"#,
    r#"{"no_verdict":1,"place":168,"size":50,"part":"record","class":"TObjString","name":"x","cycle":1}"#,
    r#"{"no_verdict":2,"place":218,"size":79,"part":"record","class":"TFile","name":"a","cycle":1}"#,
];

/// Each line is an object of its own, and rows stand behind their file.
#[test]
fn lines_and_rows() {
    let folder = folder("json_lines");
    let odd = OsStr::from_bytes(b"a\xff\\.root");
    let mut bad = one_root();
    fs::write(folder.join(odd), &bad).unwrap();
    bad[297] = 0;
    fs::write(folder.join("b.root"), bad).unwrap();
    let run = |arguments: &[&OsStr]| {
        let run = Command::new(ROOTAUDIT).args(arguments).current_dir(&folder).output().unwrap();
        let (status, out, errors) = printed(run);
        assert!(errors.is_empty() && out.ends_with("}\n"), "{out}");
        out.lines().for_each(|line| drop(parse(line)));
        (status, lasting(&out).join("\n"))
    };
    let [json, rows, b, c] = ["--json", "--rows", "b.root", "c.root"].map(OsStr::new);
    assert_eq!(run(&[json, odd, b, c]), (FAILED, JSON.join("\n")));
    assert_eq!(run(&[json, rows, odd]), (PASSED, [&JSON[..1], &ROWS].concat().join("\n")));
    assert_eq!(run(&[json, rows, b]), (REFUSED, [&JSON[1..2], &NO_VERDICT].concat().join("\n")));
    let all = [&JSON[..1], &ROWS, &JSON[1..2], &NO_VERDICT, &JSON[2..]].concat().join("\n");
    assert_eq!(run(&[json, rows, odd, b, c]), (FAILED, all));
    let last = r#"{"files":1,"passed":1,"refused":0,"not_read":0,"repeated":0,"expected":1,"words":"all passed"}"#;
    let quiet = ["--json", "--quiet", "--expect", "1"].map(OsStr::new);
    assert_eq!(run(&[&quiet[..], &[odd]].concat()), (PASSED, last.into()));
}

/// The object of a file.
fn object(arguments: &[&OsStr]) -> Json {
    let (_, out, errors) = rootaudit(&[&[OsStr::new("--json"), OsStr::new("--")], arguments].concat());
    assert_eq!((errors.as_str(), out.lines().count()), ("", 1), "{out}");
    parse(out.trim_end_matches('\n'))
}

fn text(text: impl Into<String>) -> Json {
    Json::Text(text.into())
}

fn seconds(time: SystemTime) -> i64 {
    time.duration_since(UNIX_EPOCH).unwrap().as_secs() as i64
}

/// When the audit was made, and which length and dates the file had.
#[test]
fn facts() {
    let path = store("json_facts.root", &one_root());
    // 2000-02-29 12:34:56, and some nanoseconds.
    let modified = UNIX_EPOCH + Duration::new(951_827_696, 123_456_789);
    File::options().write(true).open(&path).unwrap().set_modified(modified).unwrap();
    let known = fs::metadata(&path).unwrap();
    let before = date(seconds(SystemTime::now())) + "Z";
    let found = object(&[path.as_os_str()]);
    let after = date(seconds(SystemTime::now())) + "Z";
    assert_eq!(found.names(), FIELDS.split(' ').collect::<Vec<&str>>());
    assert!((before.as_str()..=after.as_str()).contains(&found.text("time")), "{before} {found:?} {after}");
    assert_eq!(found.get("bytes"), &Json::Number(364));
    let nanoseconds = known.mtime_nsec();
    assert_eq!(found.text("modified"), format!("2000-02-29T12:34:56.{nanoseconds:09}Z"));
    assert_eq!(found.text("changed"), format!("{}.{:09}Z", date(known.ctime()), known.ctime_nsec()));
    let (_, version, _) = rootaudit(&["--version"]);
    assert_eq!(found.text("version"), version.trim_end().replace('\n', "; "));
}

/// Before 1970 too.
#[test]
fn an_old_file() {
    let path = store("json_old.root", &one_root());
    let modified = UNIX_EPOCH - Duration::from_millis(1500);
    File::options().write(true).open(&path).unwrap().set_modified(modified).unwrap();
    if fs::metadata(&path).unwrap().modified().unwrap() != modified {
        return println!("skipped: this file system has no such date");
    }
    assert_eq!(object(&[path.as_os_str()]).text("modified"), "1969-12-31T23:59:58.500000000Z");
}

/// Of a file that is not read there are no dates, and nothing was fetched.
#[test]
fn read_and_fetched() {
    let folder = folder("json_read");
    fs::write(folder.join("a.root"), one_root()).unwrap();
    for (arguments, read, fetched) in [
        (&["--json", "--", "a.root"][..], false, false),
        (&["--json", "--read", "--", "a.root"], true, true),
        (&["--json", "--", "none.root"], false, false),
        (&["--json", "--read", "--", "none.root"], true, false),
    ] {
        let (_, out, _) = rootaudit_in(&folder, arguments);
        let found = parse(out.trim_end_matches('\n'));
        assert_eq!(found.names(), FIELDS.split(' ').collect::<Vec<&str>>());
        assert_eq!([found.get("read"), found.get("fetched")], [&Json::Bool(read), &Json::Bool(fetched)], "{out}");
        let is_known = arguments.contains(&"a.root");
        for fact in ["bytes", "modified", "changed"] {
            assert_eq!(found.get(fact) != &Json::Null, is_known, "{out}");
        }
    }
}

/// The name as it is, beside the one in ASCII; none of what is no UTF-8.
#[test]
fn paths() {
    let folder = folder("json_paths");
    for (name, ascii) in [
        ("a.root", "a.root"),
        ("run 12: \u{540d}\u{524d} \u{e9}.root", r"run 12: \xe5\x90\x8d\xe5\x89\x8d \xc3\xa9.root"),
        ("a\"b\\c.root", r#"a"b\\c.root"#),
        ("a\n\t\u{1b}\u{7f}.root", r"a\x0a\x09\x1b\x7f.root"),
        ("a\u{202e}\u{2028}e\u{301}.root", r"a\xe2\x80\xae\xe2\x80\xa8e\xcc\x81.root"),
        ("\u{1f389}\u{e0001}.root", r"\xf0\x9f\x8e\x89\xf3\xa0\x80\x81.root"),
    ] {
        fs::write(folder.join(name), one_root()).unwrap();
        let (_, out, _) = rootaudit_in(&folder, &["--json", "--", name]);
        assert_eq!(out.lines().count(), 1, "{out}");
        let found = parse(out.trim_end_matches('\n'));
        assert_eq!([found.get("path"), found.get("name")], [&text(name), &text(ascii)], "{out}");
        // Letters stand for themselves, and what changes how a line is shown does not.
        assert_eq!(out.contains('\u{540d}'), name.contains('\u{540d}'));
        assert!(!out.contains(['\u{202e}', '\u{2028}', '\u{301}', '\u{7f}', '\u{1b}', '\u{e0001}']), "{out}");
    }
    let name = Path::new(OsStr::from_bytes(b"a\xff.root"));
    fs::write(folder.join(name), one_root()).unwrap();
    let run = Command::new(ROOTAUDIT).arg("--json").arg(name).current_dir(&folder).output().unwrap();
    let found = parse(printed(run).1.trim_end_matches('\n'));
    assert_eq!([found.get("path"), found.get("name")], [&Json::Null, &text(r"a\xff.root")]);
}

/// Every character comes back from a string of JSON.
#[test]
fn every_character() {
    for c in (0..=0x10_ffff).filter_map(char::from_u32) {
        let line = format!("{{\"c\":{}}}", string(&c.to_string()));
        assert_eq!(parse(&line).text("c").chars().collect::<Vec<char>>(), [c]);
    }
}

/// As many lines as pieces, counted from 0.
#[test]
fn many_rows() {
    let pieces = 3_000;
    let path = store("json_many.root", &nested::plan(&mut Rng::new(1), pieces, 0).build().bytes);
    let (status, out, _) = rootaudit(&["--json", "--rows", path.to_str().unwrap()]);
    assert_eq!((status, out.lines().count()), (PASSED, 1 + pieces));
    for (nth, line) in out.lines().skip(1).enumerate() {
        assert_eq!(parse(line).get("row"), &Json::Number(nth as i64), "{line}");
    }
}
