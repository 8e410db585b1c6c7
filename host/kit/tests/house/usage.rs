//! One table of options: the command line, the help, the manual, README and the completions have it.

use kit::documents::made::PROGRAMS;
use kit::gen::one_root;
use kit::harness::command::{folder, is_there, printed, Printed, FAILED, PASSED, ROOTAUDIT, ROOTKEYS};
use kit::harness::folder::{code, document, repository};
use programs::usage::{Argument, Program, Switch};
use std::fs;
use std::os::unix::fs::symlink;
use std::path::{Path, PathBuf};
use std::process::Command;

const DOCUMENTS: &str = env!("CARGO_BIN_EXE_documents");
/// The documents of each program, but for its name.
const MADE: [&str; 4] = ["man/@.1", "completions/@.bash", "completions/_@", "completions/@.fish"];

fn run(program: &str, folder: &Path, arguments: &[&str]) -> Printed {
    printed(Command::new(program).args(arguments).current_dir(folder).output().unwrap())
}

/// A program that was built for the tests.
fn built(program: &Program) -> &'static str {
    [ROOTAUDIT, ROOTKEYS].into_iter().find(|path| path.ends_with(&format!("/{}", program.name))).unwrap()
}

/// A folder with a file, a list of files, and a folder that has the file too.
fn prepared(name: &str) -> PathBuf {
    let folder = folder(name);
    fs::write(folder.join("a.root"), one_root()).unwrap();
    fs::write(folder.join("list"), "a.root").unwrap();
    fs::create_dir(folder.join("below")).unwrap();
    fs::write(folder.join("below/b.root"), one_root()).unwrap();
    folder
}

/// A value for an option, if it wants one.
fn value(option: &Switch) -> Option<&'static str> {
    match option.argument {
        Argument::None => None,
        Argument::Number(_) => Some("1"),
        Argument::Folder(_) => Some("below"),
        Argument::File("PAGE") => Some("page"),
        Argument::File(_) => Some("list"),
    }
}

/// The ways to write an option, each with a file where the option itself names none.
fn forms(option: &Switch) -> Vec<Vec<String>> {
    let mut forms = Vec::new();
    for flag in option.flags.iter().map(|flag| (*flag).to_owned()) {
        match value(option) {
            None => forms.push(vec![flag]),
            Some(value) => {
                let joint = if flag.starts_with("--") { "=" } else { "" };
                forms.extend([vec![format!("{flag}{joint}{value}")], vec![flag, value.into()]]);
            }
        }
    }
    let names_files = ["-r", "--files0-from", "--help", "--version"].contains(&option.flag());
    forms.iter_mut().filter(|_| !names_files).for_each(|form| form.push("a.root".into()));
    forms
}

/// Each option of the table is taken, in each of its forms, and carried out.
#[test]
fn each_option_is_taken() {
    for program in PROGRAMS {
        for form in program.options.iter().flat_map(forms) {
            let folder = prepared("usage_taken");
            let form: Vec<&str> = form.iter().map(String::as_str).collect();
            let (status, out, errors) = run(built(program), &folder, &form);
            assert_eq!((status, errors.as_str(), out.is_empty()), (PASSED, "", false), "{} {form:?}", program.name);
        }
    }
}

/// What is not in the table is not taken: every option of one character, and names near to those of the table.
#[test]
fn no_other_option_is_taken() {
    for program in PROGRAMS {
        let flags: Vec<&str> = program.options.iter().flat_map(|option| option.flags).copied().collect();
        let short = ('!'..='~').map(|c| format!("-{c}"));
        let near = flags.iter().flat_map(|flag| {
            [format!("{flag}x"), format!("{flag}-x"), flag.to_uppercase(), flag.replacen("--", "-", 1)]
        });
        let near = near.filter(|flag| flag.starts_with("--") && flag.len() > 2);
        let folder = prepared("usage_other");
        for option in short.chain(near).filter(|option| !flags.contains(&option.as_str())) {
            let (status, out, errors) = run(built(program), &folder, &[&option, "a.root"]);
            assert_eq!((status, out.as_str()), (FAILED, ""), "{option}");
            assert!(errors.contains(&format!("unknown option {option:?}")), "{option}: {errors}");
        }
    }
}

/// The texts of the table stand in all that is made of it.
#[test]
fn all_documents_have_each_option() {
    let readme = document("README.md");
    for program in PROGRAMS {
        let (_, help, _) = run(built(program), &repository(), &["--help"]);
        let made = MADE.map(|path| document(&path.replace('@', program.name)));
        for option in program.options {
            let label = option.argument.name().map_or(option.flag().into(), |name| format!("{} {name}", option.flag()));
            assert!(help.contains(&format!(" {label} ")) && readme.contains(&format!("`{label}`")), "{label}");
            assert!(readme.contains(option.help), "{label}");
            assert!(made[0].contains(&format!("\\fB{}\\fR", option.flag().replace('-', "\\-"))), "{label}");
            let words: Vec<&str> = option.help.split_whitespace().collect();
            assert!(help.split_whitespace().collect::<Vec<_>>().join(" ").contains(&words.join(" ")), "{label}");
            if option.flag() != "--" {
                let long = option.flag().trim_start_matches('-');
                assert!(made[1].contains(option.flag()) && made[2].contains(option.flag()), "{label}");
                assert!(made[3].contains(&format!(" {long} ")), "{label}");
            }
        }
    }
}

/// What is committed is what the tables say, `documents` tells what is stale, and renews it.
#[test]
fn no_document_is_stale() {
    let (status, out, errors) = run(DOCUMENTS, &repository(), &["--check"]);
    assert_eq!((status, out.as_str(), errors.as_str()), (0, "", ""), "host/run-docs renews them");
    let copy = folder("usage_stale");
    fs::copy(repository().join("README.md"), copy.join("README.md")).unwrap();
    for crates in ["crates", "crates.txt"] {
        symlink(repository().join(crates), copy.join(crates)).unwrap();
    }
    let of_programs = PROGRAMS.iter().flat_map(|program| MADE.map(|path| path.replace('@', program.name)));
    let paths: Vec<String> = of_programs.chain(["docs/CONTRACTS.md".into()]).collect();
    let (status, _, errors) = run(DOCUMENTS, &copy, &["--check"]);
    assert!(status == 1 && paths.iter().all(|path| errors.contains(&format!("{path}: "))), "{errors}");
    let (status, out, _) = run(DOCUMENTS, &copy, &[]);
    assert_eq!((status, out.lines().collect::<Vec<_>>()), (0, paths.iter().map(String::as_str).collect()));
    for path in paths.iter().map(String::as_str).chain(["README.md"]) {
        let text = fs::read_to_string(copy.join(path)).unwrap();
        assert_eq!(text, document(path));
        let word = if path.starts_with("docs/") { "promise" } else { "json" };
        fs::write(copy.join(path), text.replacen(word, "another", 1)).unwrap();
        let (status, out, errors) = run(DOCUMENTS, &copy, &["--check"]);
        assert_eq!((status, out.as_str()), (1, ""), "{path}");
        assert!(errors.starts_with(&format!("{path}: it is stale: ")), "{errors}");
        assert_eq!(run(DOCUMENTS, &copy, &[]), (0, format!("{path}\n"), String::new()));
        assert_eq!(run(DOCUMENTS, &copy, &["--check"]).0, 0);
    }
    // Without a mark nothing is written over.
    for (mark, lost) in [("numbers", "<!-- numbers -->\n"), ("usage of rootaudit", "<!-- end -->\n")] {
        let text = document("README.md").replacen(lost, "", 1);
        fs::write(copy.join("README.md"), &text).unwrap();
        for arguments in [&["--check"][..], &[]] {
            let (status, out, errors) = run(DOCUMENTS, &copy, arguments);
            assert_eq!((status, out.as_str()), (1, ""));
            assert!(errors.contains(&format!("<!-- {mark} -->, or the end of it, is missing")), "{errors}");
        }
        assert_eq!(fs::read_to_string(copy.join("README.md")).unwrap(), text);
    }
    assert_eq!(run(DOCUMENTS, &copy, &["--chekc"]).0, FAILED);
}

/// The manual as it is read.
fn rendered(program: &Program) -> String {
    let manual = repository().join("man").join(format!("{}.1", program.name));
    let output = Command::new("groff")
        .args(["-man", "-ww", "-Tascii", "-P-c", "-P-b", "-P-u", "-rLL=200n"])
        .arg(manual)
        .output();
    let (status, text, errors) = printed(output.unwrap());
    assert_eq!((status, errors.as_str()), (0, ""), "{}", program.name);
    text
}

/// No warning, and nothing that a reader copies is changed: the recipe, the examples, the options.
#[test]
fn manuals() {
    if !is_there("groff") {
        return;
    }
    for program in PROGRAMS {
        let text = rendered(program);
        for option in program.options {
            assert!(text.contains(&format!(" {}", option.flag())), "{}", option.flag());
        }
        assert!(text.contains("EXIT STATUS") && text.contains("EXAMPLES") && text.contains("SEE ALSO"));
    }
    let text = rendered(PROGRAMS[0]);
    let recipe = code(&document("README.md"), "### Before you clear a disk", "sh");
    let lines: Vec<&str> = text.lines().map(str::trim).collect();
    let recipe: Vec<&str> = recipe.lines().collect();
    assert!(lines.windows(recipe.len()).any(|lines| lines == recipe), "{text}");
    for words in
        ["A pass is no checksum", "need not be fetched", "do not clear the disk", "\\xNN", "': passed [1-9][0-9]*$'"]
    {
        assert!(text.contains(words), "{words}");
    }
    for number in 1..=14 {
        assert!(lines.iter().any(|line| line.split_whitespace().next() == Some(&number.to_string())), "{number}");
    }
}

/// Options where one may stand, none after `--`, and nothing for a number.
#[test]
fn completion_in_bash() {
    if !is_there("bash") {
        return;
    }
    let completed = |program: &Program, words: &[&str]| {
        let file = repository().join("completions").join(format!("{}.bash", program.name));
        let script = format!(
            ". \"$1\"; shift; COMP_WORDS=(\"$@\"); COMP_CWORD=$(($# - 1)); _{}; printf '%s ' \"${{COMPREPLY[@]}}\"",
            program.name
        );
        let mut bash = Command::new("bash");
        bash.args(["-c", &script, "bash"]).arg(file).arg(program.name).args(words);
        let (_, out, errors) = printed(bash.output().unwrap());
        assert_eq!(errors, "");
        out.split_whitespace().map(str::to_owned).collect::<Vec<String>>()
    };
    let [rootaudit, rootkeys] = PROGRAMS;
    assert_eq!(completed(rootaudit, &["--re"]), ["--read"]);
    assert_eq!(completed(rootaudit, &["a.root", "--ex"]), ["--expect"]);
    assert_eq!(completed(rootkeys, &["--j"]), ["--json"]);
    for none in [&["--", "--re"][..], &["a"], &["--expect", "-"], &["-j", ""], &["-r", ""], &["--html", ""]] {
        assert!(completed(rootaudit, none).is_empty(), "{none:?}");
    }
    let flags: Vec<&str> = rootaudit.options.iter().flat_map(|option| option.flags).copied().collect();
    let mut offered = completed(rootaudit, &["-"]);
    offered.push("--".into());
    assert!(flags.iter().all(|flag| offered.contains(&(*flag).to_owned())) && offered.len() == flags.len());
}
