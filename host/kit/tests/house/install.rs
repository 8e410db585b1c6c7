//! `host/install`, and a C program over what it puts in place, as README has it.

use kit::documents::made::PROGRAMS;
use kit::gen::files::plan_of;
use kit::gen::{one_root, Rng};
use kit::harness::command::{folder, line, printed, store, FAILED, PASSED, REFUSED};
use kit::harness::folder::{document, repository};
use std::fs;
use std::path::Path;
use std::process::Command;

fn install(arguments: &[&str]) -> kit::harness::command::Printed {
    printed(Command::new(repository().join("host/install")).args(arguments).output().unwrap())
}

#[test]
fn puts_all_in_place() {
    let prefix = folder("installed");
    let (status, out, errors) = install(&[prefix.to_str().unwrap()]);
    assert_eq!(status, PASSED, "{errors}");
    let files = ["lib/librootmap.a", "include/rootmap.h", "lib/pkgconfig/rootmap.pc", "share/doc/rootmap/RULES.md"];
    let of_each = [
        "bin/@",
        "share/man/man1/@.1",
        "share/bash-completion/completions/@",
        "share/zsh/site-functions/_@",
        "share/fish/vendor_completions.d/@.fish",
    ];
    let of_programs = PROGRAMS.iter().flat_map(|program| of_each.map(|file| file.replace('@', program.name)));
    let by_hand = repository().join("man/rootmap.3").exists().then_some("share/man/man3/rootmap.3");
    let files: Vec<String> = files.into_iter().chain(by_hand).map(str::to_owned).chain(of_programs).collect();
    let mut said: Vec<&str> = out.lines().map(|line| line.strip_prefix(prefix.to_str().unwrap()).unwrap()).collect();
    said.sort();
    let mut expected: Vec<String> = files.iter().map(|file| format!("/{file}")).collect();
    expected.sort();
    assert_eq!(said, expected);
    assert!(files.iter().all(|file| prefix.join(file).is_file()));
    let version = fs::read_to_string(prefix.join("lib/pkgconfig/rootmap.pc")).unwrap();
    assert!(version.contains(&format!("\nVersion: {}\n", env!("CARGO_PKG_VERSION"))));
    let path = store("installed.root", &one_root());
    let run = Command::new(prefix.join("bin/rootaudit")).arg(&path).output().unwrap();
    assert_eq!(printed(run), (PASSED, line(&path, "passed 5"), String::new()));
    let run = Command::new(prefix.join("bin/rootkeys")).arg(&path).output().unwrap();
    assert!(printed(run).1.ends_with(&line(&path, "no verdict: 5 pieces, to its end")));
    if kit::harness::command::is_there("pkg-config") {
        c_program(&prefix);
    }
}

/// README's function and README's line: a pass, a pass after 7, a refusal, and no bytes.
fn c_program(prefix: &Path) {
    let readme = document("README.md");
    let code = |language: &str, with: &str| {
        let begin = format!("```{language}\n");
        let mut blocks = readme.split(&begin).skip(1).map(|block| block.split_once("```").unwrap().0);
        blocks.find(|block| block.contains(with)).unwrap().to_owned()
    };
    let folder = folder("installed_c");
    let main = document("host/kit/tests/c/passes.c");
    fs::write(folder.join("program.c"), code("c", "ROOTMAP_UNFINISHED") + &main).unwrap();
    let compile = code("sh", "pkg-config").replace("PREFIX", prefix.to_str().unwrap());
    let compile = compile.replacen("cc ", "cc -std=c99 -Wall -Wextra -Wpedantic -Werror ", 1);
    let compiled = printed(Command::new("sh").args(["-c", &compile]).current_dir(&folder).output().unwrap());
    assert_eq!(compiled, (PASSED, String::new(), String::new()), "{compile}");
    let many = plan_of(&mut Rng::new(300), 3_000, 10, true).build().bytes;
    let files = [one_root(), many, one_root()[..300].to_vec(), vec![]];
    let paths: Vec<_> = (0..).zip(&files).map(|(nth, file)| store(&format!("installed_{nth}.root"), file)).collect();
    let run = Command::new(folder.join("program")).args(paths).output().unwrap();
    assert_eq!(printed(run), (PASSED, "1\n1\n0\n0\n".into(), String::new()));
}

/// Programs that need no library where they run.
#[test]
fn static_programs() {
    let prefix = folder("installed_static");
    let (status, _, errors) = install(&["--static", prefix.to_str().unwrap()]);
    assert_eq!(status, PASSED, "{errors}");
    let path = store("installed_static.root", &one_root());
    let run = Command::new(prefix.join("bin/rootaudit")).args(["--read", "--rows"]).arg(&path).output().unwrap();
    assert_eq!(
        printed(run),
        kit::harness::command::rootaudit(&["--read".as_ref(), "--rows".as_ref(), path.as_os_str()])
    );
    // What was cut, and a closed output: both need the C library's start-up and its calls.
    let cut = store("installed_static_cut.root", &one_root()[..300]);
    assert_eq!(Command::new(prefix.join("bin/rootaudit")).arg(cut).output().unwrap().status.code(), Some(REFUSED));
    let program = prefix.join("bin/rootaudit");
    assert_eq!(kit::harness::command::shell("\"$0\" \"$1\" >&-", program.to_str().unwrap(), &path).0, FAILED);
    for program in PROGRAMS.iter().filter(|_| kit::harness::command::is_there("readelf")) {
        let mut readelf = Command::new("readelf");
        let (status, out, _) =
            printed(readelf.args(["-ld"]).arg(prefix.join("bin").join(program.name)).output().unwrap());
        assert_eq!((status, out.contains("INTERP"), out.contains("NEEDED")), (PASSED, false, false), "{out}");
        let built = Command::new("readelf").arg("-ld").arg(kit::harness::command::ROOTAUDIT).output().unwrap();
        assert!(printed(built).1.contains("NEEDED"), "the others need a library");
    }
}

#[test]
fn wrong_command_lines() {
    let many = ["a"; 10];
    let wrong: [&[&str]; 9] = [
        &[],
        &["--help"],
        &["", "b"],
        &["a", "b"],
        &[""],
        &["--static"],
        &["--static", "-x"],
        &["a", "--static"],
        &many,
    ];
    for wrong in wrong {
        let (status, out, errors) = install(wrong);
        let usage = "usage: host/install [--static] PREFIX\n";
        assert_eq!((status, out.as_str(), errors.as_str()), (FAILED, "", usage), "{wrong:?}");
    }
    assert!(!Path::new("a").exists());
}
