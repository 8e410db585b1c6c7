//! The program rootkeys: what it prints, and its exit status.

use kit::gen::{one_root, versioned_key, wide_root, Rng};
use kit::harness::command::{store, ROOTKEYS};
use kit::harness::folder::tmp;
use std::path::Path;
use std::process::Command;

/// The list of one.root's pieces, with these places and sizes.
fn listed(pieces: [(u64, u64); 5]) -> String {
    let keys = ["TFile\ta;1", "TObjString\tx;1", "TFile\ta;1", "", "TFile\ta;1"];
    let line = |((place, size), key): ((u64, u64), &str)| match key {
        "" => format!("{place}\t{size}\tgap\n"),
        _ => format!("{place}\t{size}\trecord\t{key}\t2024-03-15 12:30:45\n"),
    };
    pieces.into_iter().zip(keys).map(line).collect()
}

const NARROW: [(u64, u64); 5] = [(100, 68), (168, 50), (218, 79), (297, 12), (309, 55)];
const WIDE: [(u64, u64); 5] = [(100, 88), (188, 58), (246, 95), (341, 12), (353, 79)];

/// The exit status and what was printed to standard output.
fn rootkeys(paths: &[&Path]) -> (i32, String) {
    let output = Command::new(ROOTKEYS).args(paths).output().unwrap();
    let said_why = !output.stderr.is_empty();
    assert_eq!(said_why, output.status.code() == Some(2), "standard error is for status 2");
    (output.status.code().unwrap(), String::from_utf8(output.stdout).unwrap())
}

/// The last line about a file.
fn ended(path: &Path, words: &str) -> String {
    format!("{}: no verdict: {words}\n", path.display())
}

#[test]
fn walks_to_the_end() {
    let path = store("listed.root", &one_root());
    assert_eq!(rootkeys(&[&path]), (0, listed(NARROW) + &ended(&path, "5 pieces, to its end")));
    let path = store("listed_wide.root", &wide_root());
    assert_eq!(rootkeys(&[&path]), (0, listed(WIDE) + &ended(&path, "5 pieces, to its end")));
    let bare = store("bare.root", &[0; 100]);
    assert_eq!(rootkeys(&[&bare]), (0, ended(&bare, "0 pieces, to its end")));
}

#[test]
fn stops_at_a_refusal() {
    let mut file = one_root();
    let before = listed(NARROW).split_inclusive('\n').take(3).collect::<String>();
    let path = store("cut.root", &file[..300]);
    assert_eq!(rootkeys(&[&path]), (1, before.clone() + &ended(&path, "3 pieces, then refused 5 at 297")));
    file[309 + 21] ^= 1;
    let path = store("moved.root", &file);
    let end = ended(&path, "4 pieces, then refused 6 at 309");
    assert_eq!(rootkeys(&[&path]), (1, format!("{before}297\t12\tgap\n{end}")));
}

/// Pipes and folders too are not read, and not waited for.
#[test]
fn cannot_read() {
    assert_eq!(rootkeys(&[&store("short.root", &[0; 99])]), (2, String::new()));
    for path in [Path::new("no such folder/no such file"), Path::new("/dev/null"), &tmp()] {
        assert_eq!(rootkeys(&[path]), (2, String::new()), "{}", path.display());
    }
    let pipe = tmp().join("rootkeys.pipe");
    let _ = std::fs::remove_file(&pipe);
    assert!(Command::new("mkfifo").arg(&pipe).status().unwrap().success());
    assert_eq!(rootkeys(&[&pipe]), (2, String::new()));
}

#[test]
fn wrong_command_lines() {
    let path = store("wrong.root", &one_root());
    let [help, option, end, json, input] = ["--help", "--rows", "--", "--json", "-"].map(Path::new);
    for wrong in [&[][..], &[end], &[help, &path], &[&path, help], &[option, &path], &[option], &[json], &[input]] {
        assert_eq!(rootkeys(wrong), (2, String::new()), "{wrong:?}");
    }
    assert_eq!(rootkeys(&[end, &path]).0, 0);
}

#[test]
fn several_files() {
    let good = store("good.root", &one_root());
    let bad = store("bad.root", &[0; 104]);
    let short = store("tiny.root", &[]);
    let (status, printed) = rootkeys(&[&bad, &good]);
    let ends = [ended(&bad, "0 pieces, then refused 5 at 100"), ended(&good, "5 pieces, to its end")];
    assert_eq!((status, printed), (1, format!("{}{}{}", ends[0], listed(NARROW), ends[1])));
    assert_eq!(rootkeys(&[&short, &bad]).0, 2);
}

#[test]
fn names_are_escaped() {
    let mut rng = Rng::new(50);
    let mut key = versioned_key(&mut rng, 4, 100, [0; 3], 7);
    key.strings = [b"A B".to_vec(), b"\x1b[31m\n\xff".to_vec(), vec![]];
    key.keylen = key.sum() as u16;
    (key.nbytes, key.cycle, key.datime) = (key.keylen.into(), 0xffff, 0);
    let file = [rng.bytes(100), key.header()].concat();
    let (status, printed) = rootkeys(&[&store("escaped.root", &file)]);
    let row = "100\t39\trecord\tA B\t\\u{1b}[31m\\n\\xff;-1\t1995-00-00 00:00:00";
    assert_eq!((status, printed.lines().next().unwrap()), (0, row));
}

const JSON: &str = r#"{"file":FILE,"place":100,"size":68,"part":"record","class":"TFile","name":"a","cycle":1,"date":"2024-03-15 12:30:45"}
{"file":FILE,"place":168,"size":50,"part":"record","class":"TObjString","name":"x","cycle":1,"date":"2024-03-15 12:30:45"}
{"file":FILE,"place":218,"size":79,"part":"record","class":"TFile","name":"a","cycle":1,"date":"2024-03-15 12:30:45"}
{"file":FILE,"place":297,"size":12,"part":"gap"}
{"file":FILE,"place":309,"size":55,"part":"record","class":"TFile","name":"a","cycle":1,"date":"2024-03-15 12:30:45"}
"#;

/// An object a piece, and one at the end of each file: nothing of it is a verdict.
#[test]
fn json() {
    let quoted = |path: &Path| format!("\"{}\"", path.display());
    let end = |path: &Path, rest: &str| format!("{{\"file\":{},\"verdict\":\"no verdict\",{rest}}}\n", quoted(path));
    let json = Path::new("--json");
    let good = store("json_good.root", &one_root());
    let whole = r#""pieces":5,"number":null,"place":null,"words":"no verdict: 5 pieces, to its end""#;
    let listed = JSON.replace("FILE", &quoted(&good)) + &end(&good, whole);
    assert_eq!(rootkeys(&[json, &good]), (0, listed.clone()));
    let cut = store("json_cut.root", &one_root()[..300]);
    let words = r#""pieces":3,"number":5,"place":297,"words":"no verdict: 3 pieces, then refused 5 at 297""#;
    let before = JSON.replace("FILE", &quoted(&cut)).split_inclusive('\n').take(3).collect::<String>();
    let before = before + &end(&cut, words);
    assert_eq!(rootkeys(&[&good, json, &cut]), (1, listed + &before));
    let short = store("json_short.root", &[0; 99]);
    let words =
        r#""pieces":null,"number":null,"place":null,"words":"no verdict: could not be read: shorter than 100 bytes""#;
    assert_eq!(rootkeys(&[json, &short, &cut]), (2, end(&short, words) + &before));
    assert!(!(JSON.to_owned() + &before).contains("passed"));
}

/// A file that is named as an option is not left out.
#[test]
fn files_named_like_options() {
    let folder = kit::harness::command::folder("rootkeys_star");
    for name in ["--json", "a.root"] {
        std::fs::write(folder.join(name), one_root()).unwrap();
    }
    let run = |arguments: &[&str]| {
        kit::harness::command::printed(Command::new(ROOTKEYS).args(arguments).current_dir(&folder).output().unwrap())
    };
    let (status, out, errors) = run(&["--json", "a.root"]);
    assert_eq!((status, out.as_str()), (2, ""));
    assert!(errors.contains("\"--json\" is also the name of a file here") && errors.contains("usage: rootkeys "));
    let (status, out, _) = run(&["--", "--json", "a.root"]);
    assert_eq!((status, out.matches(": no verdict: 5 pieces").count()), (0, 2));
}

/// A file that is cut short while it is listed: it is said on both outputs, and nothing of an audit.
#[test]
fn a_file_that_is_cut() {
    let folder = kit::harness::command::folder("rootkeys_cut");
    let files = ["a.root", "b.root", "c.root"].map(|name| folder.join(name));
    files.iter().for_each(|path| std::fs::write(path, one_root()).unwrap());
    let output = kit::harness::strike::struck_at(ROOTKEYS, &files[1], "cut").args(&files).output().unwrap();
    let words = "could not be read: it was cut short while it was listed, or its disk failed; \
                 files after it were not listed";
    let stopped = kit::harness::command::line(&files[1], words);
    let listed = listed(NARROW) + &ended(&files[0], "5 pieces, to its end");
    assert_eq!(kit::harness::command::printed(output), (2, listed + &stopped, stopped));
}

/// That of rootaudit, by its own name.
#[test]
fn version() {
    let (status, out) = rootkeys(&[Path::new("--version")]);
    let (_, other, _) = kit::harness::command::rootaudit(&["--version"]);
    assert_eq!((status, out), (0, other.replacen("rootaudit", "rootkeys", 1)));
}

#[test]
fn help_says_it_does_not_audit() {
    let (status, printed) = rootkeys(&[Path::new("--help")]);
    assert_eq!(status, 0);
    assert!(printed.contains("does NOT audit") && printed.contains("no pass"));
}
