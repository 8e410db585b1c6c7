//! What the documents say, held to what the programs do.

use kit::gen::one_root;
use kit::harness::command::{folder, printed, rootaudit, shell, store, FAILED, PASSED, ROOTAUDIT};
use kit::harness::folder::{code, document, repository};
use programs::ffi::Answer;
use programs::rootaudit::words::refusal;
use second::number;
use std::fs;
use std::path::Path;
use std::process::Command;

/// The person with the disk reads no farther.
#[test]
fn the_first_screen() {
    let readme = document("README.md");
    let screen: String = readme.split_inclusive('\n').take(45).collect();
    for words in [
        "host/install ",
        "rootaudit -- *.root",
        "Only `passed` is a pass",
        "do not clear the disk",
        "no checksum",
        "need not be fetched",
        "Before you clear a disk",
        "sha256sum --strict -c",
        "rootaudit --read --expect 19 -- *.root",
    ] {
        assert!(screen.contains(words), "{words}");
    }
}

/// The recipe clears the way for good files alone.
#[test]
fn before_you_clear_a_disk() {
    let recipe = code(&document("README.md"), "### Before you clear a disk", "sh");
    let run = |name: &str, expected: &str, prepare: &dyn Fn(&Path)| {
        let folder = folder(name);
        let [disk, copy] = ["disk", "copy"].map(|name| folder.join(name));
        fs::create_dir(&disk).unwrap();
        for name in ["a.root", "b.root"] {
            fs::write(disk.join(name), one_root()).unwrap();
        }
        prepare(&disk);
        let line = recipe.replace("/disk", disk.to_str().unwrap()).replace("/copy", copy.to_str().unwrap());
        let line = line.replace("--expect 19", &format!("--expect {expected}")).replace("rootaudit", ROOTAUDIT);
        let (status, out, _) = printed(Command::new("sh").args(["-c", &line]).output().unwrap());
        (status == 0, out.ends_with("\nmay be cleared\n"))
    };
    assert_eq!(run("recipe_good", "2", &|_| ()), (true, true));
    assert_eq!(run("recipe_missing", "3", &|_| ()), (false, false));
    assert_eq!(run("recipe_bad", "2", &|disk| fs::write(disk.join("b.root"), b"root").unwrap()), (false, false));
    assert_eq!(run("recipe_none", "2", &|disk| fs::remove_dir_all(disk).unwrap()), (false, false));
}

/// README's pattern finds passes in a log, and nothing else.
#[test]
fn the_pattern_for_a_log() {
    let readme = document("README.md");
    let grep = readme.lines().find(|line| line.starts_with("    grep -E ")).unwrap().trim();
    let folder = folder("documents_log");
    let names = ["a.root", "x: passed 5", "y: passed 5\n", "2 files: passed 2"];
    for name in names {
        fs::write(folder.join(name), if name == "a.root" { one_root() } else { vec![] }).unwrap();
    }
    let line = format!("{{ '{ROOTAUDIT}' --rows -- *; '{ROOTAUDIT}' --help; }} | {grep}");
    let found = printed(Command::new("sh").args(["-c", &line]).current_dir(&folder).output().unwrap());
    assert_eq!(found, (PASSED, "a.root: passed 5\n".into(), String::new()));
}

/// One row for each number; the column "now" says what the line says.
#[test]
fn one_table_of_refusals() {
    let readme = document("README.md");
    assert_eq!(readme.matches("| number |").count(), 1);
    let (_, table) = readme.split_once("| number |").unwrap();
    let rows = table.lines().skip(2).take_while(|line| line.starts_with('|'));
    let rows: Vec<Vec<&str>> = rows.map(|row| row.split('|').map(str::trim).collect()).collect();
    // 25 stands in no paper, and 26 is of a request that is not in.
    let numbers: Vec<u64> = (1..=24).chain([number::SALVAGE]).collect();
    assert_eq!(rows.len(), numbers.len());
    for (number, row) in numbers.into_iter().zip(&rows) {
        assert_eq!((row[1], row.len()), (number.to_string().as_str(), 7), "{row:?}");
        if (1..=14).contains(&number) && number != 7 {
            let (_, next) = refusal(&Answer::refusal(number, 309), &one_root());
            assert!(row[5].contains(next), "{number}: {next}");
        }
    }
}

/// Each rule has its number in the restatement.
#[test]
fn the_rules() {
    let rules = document("docs/RULES.md");
    for number in (1..=14).filter(|&number| number != 7) {
        assert!(rules.contains(&format!("[{number}]")), "{number}");
    }
}

/// `rootmap` has no exit status; README says so, and shows how to have one.
#[test]
fn rootmap_has_no_status() {
    let readme = document("README.md");
    let line = code(&readme, "### `rootmap`", "sh");
    assert!(readme.contains("**Read its text, never its exit status**"));
    let program = repository().join("crates/rootmap/out/rootmap");
    let line =
        line.trim().replace("crates/rootmap/out/rootmap", program.to_str().unwrap()).replace("FILE.root", "\"$1\"");
    let [good, bad] = [one_root(), one_root()[..300].to_vec()];
    for (name, file, is_pass) in [("rootmap_good.root", good, true), ("rootmap_bad.root", bad, false)] {
        let path = store(name, &file);
        let alone = shell("exec \"$0\" < \"$1\"", program.to_str().unwrap(), &path);
        assert_eq!((alone.0, alone.1.starts_with("passed 5\n")), (PASSED, is_pass), "host/run-tests builds rootmap");
        assert_eq!(shell(&line, "", &path).0 == 0, is_pass);
    }
}

/// Every program that is built without a feature is in the list.
#[test]
fn host_run_lists_the_programs() {
    let run = repository().join("host/run");
    let (status, help, _) = printed(Command::new(&run).arg("--help").output().unwrap());
    assert_eq!(status, PASSED);
    let package = document("host/programs/Cargo.toml");
    let programs = package.split("[[bin]]").skip(1).filter(|program| !program.contains("required-features"));
    let names: Vec<&str> = programs.map(|program| program.split('"').nth(1).unwrap()).collect();
    assert_eq!(names, ["rootaudit", "rootkeys"]);
    for name in names.iter().chain(&["rootmap", "host/install", "Read its"]) {
        assert!(help.contains(name), "{name}");
    }
    for wrong in [vec![], vec!["nothing"]] {
        let (status, out, errors) = printed(Command::new(&run).args(wrong).output().unwrap());
        assert_eq!((status, out, errors), (FAILED, String::new(), help.clone()));
    }
}

/// The program that `host/run` starts has the standard output that `host/run` was given, or none.
#[test]
fn host_run_keeps_the_output() {
    let path = store("documents_run.root", &one_root());
    let run = repository().join("host/run");
    let run = run.to_str().unwrap();
    let (status, out, _) = shell("\"$0\" rootaudit -- \"$1\"", run, &path);
    assert_eq!((status, out), (PASSED, kit::harness::command::line(&path, "passed 5")));
    for how in [">&-", "1</dev/null", ">/dev/full"] {
        assert_eq!(shell(&format!("\"$0\" rootaudit -- \"$1\" {how}"), run, &path).0, FAILED, "{how}");
    }
}

/// The manual has every option of the help, and the promise.
#[test]
fn the_manual() {
    let manual = document("man/rootaudit.1").replace('\\', "").replace('\n', " ");
    let (_, help, _) = rootaudit(&["--help"]);
    let options: Vec<&str> = help.lines().filter_map(|line| line.strip_prefix("  --")?.split(' ').next()).collect();
    assert_eq!(options.len(), 9);
    for option in options.into_iter().filter(|option| !option.is_empty()) {
        assert!(manual.contains(&format!("--{option}")), "{option}");
    }
    assert!(manual.contains("A pass is no checksum") && manual.contains("do not clear the disk"));
}

/// Which requests are in stands in the program and in the list of changes.
#[test]
fn changes_of_verdicts() {
    let (_, version, _) = rootaudit(&["--version"]);
    let changes = document("CHANGELOG.md");
    let headings = changes.lines().rev().filter(|line| line.starts_with("## Version "));
    let headings: Vec<&str> = headings.map(|line| line.split_once(": ").unwrap().1).collect();
    assert_eq!(headings[0], "base");
    let requests = headings.iter().filter_map(|heading| heading.strip_suffix(", changes verdicts"));
    let requests: Vec<&str> = requests.map(|heading| heading.strip_prefix("request ").unwrap()).collect();
    assert!(version.contains(&format!("\nrequests: {}\n", requests.join(", "))), "{version}");
    assert!(document("README.md").contains("There is no licence file"));
}
