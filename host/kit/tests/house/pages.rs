//! Pages about the proofs, held to the repository: docs/CONTRACTS.md is what a program makes, and what docs/LAYERS.md
//! and docs/DEMANDS.md name is there.

use kit::documents::repository::{read, Crate, Place, Repository};
use kit::documents::theory::Theory;
use kit::documents::{believed, contracts, named};
use kit::harness::folder::{self, repository as root, tmp};
use std::fs;
use std::os::unix::fs::PermissionsExt;
use std::path::{Path, PathBuf};
use std::process::Command;

/// A text in docs/.
fn document(name: &str) -> String {
    folder::document(&format!("docs/{name}"))
}

/// All files below a folder, those of builds left out.
fn below(folder: &Path) -> Vec<PathBuf> {
    let entries = folder.read_dir().unwrap().map(|entry| entry.unwrap().path());
    let entries = entries.filter(|path| path.file_name().is_some_and(|name| name != "target"));
    entries.flat_map(|path| if path.is_dir() { below(&path) } else { vec![path] }).collect()
}

#[test]
fn contracts_are_made() {
    let is_made = contracts(&root()).unwrap() == document("CONTRACTS.md");
    assert!(is_made, "docs/CONTRACTS.md is stale: run host/run-docs");
}

/// Every public function promises something, asks for nothing and is told in words; some wrong answers of each crate
/// are refused.
#[test]
fn promises() {
    let repository = read(&root()).unwrap();
    let crates: Vec<&Crate> = repository.crates.iter().filter(|one| one.public().next().is_some()).collect();
    assert!(crates.len() >= 26);
    assert!(crates.iter().map(|one| one.public().count()).sum::<usize>() >= 87);
    for one in crates {
        assert!(!one.edits.is_empty(), "{}: no edit in must-fail", one.name);
        for (source, function) in one.public() {
            let name = format!("{}: {}", one.name, source.path(function));
            assert!(function.ensures.is_some(), "{name} promises nothing");
            assert!(function.requires.is_none(), "{name} has a requires");
            assert!(!function.comment.is_empty(), "{name} has no comment");
        }
    }
}

/// The readers of functions and of definitions miss none.
#[test]
fn all_are_found() {
    let root = root();
    let repository = read(&root).unwrap();
    for source in repository.crates.iter().flat_map(|one| &one.sources) {
        let heads = source.text.lines().filter(|line| line.split_whitespace().any(|word| word == "fn"));
        let heads = heads.filter(|line| !line.starts_with("//")).count();
        assert_eq!(heads, source.functions.len(), "{}", source.module);
    }
    let files = repository.crates.iter().flat_map(|of| of.specs.iter().map(move |theory| (of, theory)));
    for (of, theory) in files {
        let path = root.join(format!("crates/{}/specs/{}.antt", of.name, theory.file));
        let text = fs::read_to_string(&path).unwrap();
        let words = ["abbrev ", "unfoldable ", "pub record ", "pub data "];
        let heads = text.lines().filter(|line| words.iter().any(|word| line.trim_start().starts_with(word)));
        assert_eq!(heads.count(), theory.definitions.len(), "{}", path.display());
    }
}

#[test]
fn every_crate_has_a_layer() {
    let layers = document("LAYERS.md");
    let table = named::section(&layers, "The layers");
    for one in read(&root()).unwrap().crates {
        assert!(table.contains(&format!("`{}`", one.name)), "{} has no layer in docs/LAYERS.md", one.name);
    }
}

/// Each name stands where its row says; each file is there.
#[test]
fn every_name_is_there() {
    let repository = read(&root()).unwrap();
    let files = Files::new(&repository);
    for page in ["LAYERS.md", "DEMANDS.md"] {
        let text = document(page);
        let wrong: Vec<String> = named::blocks(&text).iter().flat_map(|block| files.wrong(block)).collect();
        assert!(wrong.is_empty(), "docs/{page}:\n{}", wrong.join("\n"));
    }
}

/// Words of the language, and variables.
const WORDS: [&str; 10] = ["requires", "ensures", "Result", "Option", "s", "p", "answer", "s.now", "s.old", "s.new"];

/// What the names of a page are looked up in.
struct Files<'a> {
    repository: &'a Repository,
    root: PathBuf,
    host: Vec<PathBuf>,
}

/// What a page names as a file.
enum Found<'a> {
    Theory(&'a Theory),
    Texts(Vec<PathBuf>),
    Other,
}

impl<'a> Files<'a> {
    fn new(repository: &'a Repository) -> Self {
        let root = root();
        Files { repository, host: below(&root.join("host")), root }
    }

    fn wrong(&self, block: &named::Block) -> Vec<String> {
        let lost = block.files.iter().filter(|file| self.find(file).is_none());
        let mut wrong: Vec<String> = lost.map(|file| format!("no file {file}")).collect();
        for one in &block.names {
            if !self.stands(one) {
                wrong.push(format!("no {} in {:?}: {}", one.name, one.files, block.text.trim()));
            }
        }
        wrong
    }

    /// `crate/File` of specs or proofs, `crate/edit`, a path below the root, or a test or another file of host by its
    /// name.
    fn find(&self, file: &str) -> Option<Found<'a>> {
        if let Some((of, rest)) = file.split_once('/') {
            let of = self.repository.crates.iter().find(|one| one.name == of);
            if let Some(found) = of.and_then(|of| part(of, rest)) {
                return Some(found);
            }
        }
        if file.ends_with(".rs") {
            let found: Vec<PathBuf> = self.host.iter().filter(|path| is_called(path, file)).cloned().collect();
            return (!found.is_empty()).then_some(Found::Texts(found));
        }
        let path = self.root.join(file);
        path.exists().then(|| if path.is_file() { Found::Texts(vec![path]) } else { Found::Other })
    }

    fn stands(&self, one: &named::Named) -> bool {
        if self.needs_no_file(one.name) {
            return true;
        }
        if one.files.is_empty() {
            return self.is_known(one.name);
        }
        one.files.iter().any(|file| match self.find(file) {
            Some(Found::Theory(theory)) => defines(theory, one.name),
            Some(Found::Texts(paths)) => paths.iter().any(|path| names(path, one.name)),
            Some(Found::Other) => self.is_known(one.name),
            None => true,
        })
    }

    /// A crate, a public function or a word of the language.
    fn needs_no_file(&self, name: &str) -> bool {
        let in_crate = |one: &Crate| one.name == name || one.public().any(|(_, function)| function.name == name);
        WORDS.contains(&name) || self.repository.crates.iter().any(in_crate)
    }

    /// A file or a definition of any crate, a program or a module of host.
    fn is_known(&self, name: &str) -> bool {
        let is_there = |theory: &Theory| theory.file == name || defines(theory, name);
        let in_crate = |one: &Crate| one.specs.iter().chain(&one.proofs).any(is_there);
        let is_module = self.host.iter().any(|path| is_called(path, &format!("{name}.rs")));
        is_module || self.repository.crates.iter().any(in_crate)
    }
}

/// A file of definitions, else one of theorems, else an edit.
fn part<'a>(of: &'a Crate, name: &str) -> Option<Found<'a>> {
    let theory = of.specs.iter().chain(&of.proofs).find(|theory| theory.file == name);
    let is_edit = of.edits.iter().any(|edit| edit.name == name);
    theory.map(Found::Theory).or(is_edit.then_some(Found::Other))
}

/// Whether a path ends with a file's name; `*` stands for anything.
fn is_called(path: &Path, file: &str) -> bool {
    let name = path.file_name().unwrap().to_string_lossy();
    match file.split_once('*') {
        Some((first, last)) => name.starts_with(first) && name.ends_with(last),
        None => name == file,
    }
}

/// A definition, a field, a constructor or a theorem; `Record.field`.
fn defines(theory: &Theory, name: &str) -> bool {
    match name.split_once('.') {
        Some((record, field)) => {
            theory.definitions.iter().any(|one| one.name == record && one.fields.iter().any(|f| f == field))
        }
        None => theory.definitions.iter().any(|one| one.has(name)),
    }
}

/// A function in code.
fn names(path: &Path, name: &str) -> bool {
    fs::read_to_string(path).unwrap().contains(&format!("fn {name}("))
}

/// Each definition is reached from a public promise or a theorem worth reading, or need not be believed; and none is
/// both.
#[test]
fn what_is_believed() {
    let repository = read(&root()).unwrap();
    let layers = document("LAYERS.md");
    let theorems = theorems(&layers);
    assert!(theorems.len() >= 15);
    let reached = believed::reached(&repository, &theorems);
    let is_left = |place: &Place| is_left(&layers, place);
    let all: Vec<Place> = believed::all(&repository).collect();
    assert!(all.len() >= 400, "{}", all.len());
    let unused: Vec<&Place> = all.iter().filter(|place| !reached.contains(place) && !is_left(place)).collect();
    assert!(unused.is_empty(), "no promise rests on these, and docs/LAYERS.md does not say so: {unused:?}");
    let believed: Vec<&Place> = reached.iter().filter(|place| is_left(place)).collect();
    assert!(believed.is_empty(), "promises rest on these, and docs/LAYERS.md says that none does: {believed:?}");
}

/// The rules for a pass rest on no definition of the order: docs/DEMANDS.md says so.
#[test]
fn rules_without_a_walk() {
    let repository = read(&root()).unwrap();
    let under = |file, name| believed::under(&repository, "rules", file, name);
    let is_order = |place: &&Place| place.of == "rules" && ["Order", "Turn"].contains(&place.file);
    assert!(under("Order", "verdict").iter().filter(is_order).count() >= 20);
    let rules = under("Rules", "Rules");
    assert!(rules.len() >= 50);
    assert_eq!(rules.iter().find(is_order), None);
}

/// Crate, file and name of the theorems worth reading.
fn theorems(layers: &str) -> Vec<(String, String, String)> {
    let blocks = named::blocks(named::section(layers, "Theorems worth reading"));
    let names = blocks.iter().flat_map(|block| &block.names);
    let parts = names.filter_map(|one| {
        let (of, file) = one.files.first()?.split_once('/')?;
        Some((of.to_owned(), file.to_owned(), one.name.to_owned()))
    });
    parts.collect()
}

/// Whether the list of what need not be believed has a definition, by its name or with its whole file.
fn is_left(layers: &str, place: &Place) -> bool {
    let file = format!("{}/{}", place.of, place.file);
    let rows = named::blocks(named::section(layers, "What need not be believed"));
    let mut rows = rows.iter().filter(|block| block.files.contains(&file.as_str()));
    rows.any(|row| row.names.is_empty() || row.names.iter().any(|one| one.name == place.name && one.files == [&file]))
}

/// The gate as it is, over a stand-in for `rt` that ends with this status and says this of what it did, and one for the
/// host tests: whether it passed, and its lines.
fn gate(name: &str, proofs: u8, tests: u8, did: &str) -> (bool, Vec<String>) {
    let folder = tmp().join(name);
    let _ = fs::remove_dir_all(&folder);
    let script = |path: &str, text: &str| {
        let path = folder.join(path);
        fs::create_dir_all(path.parent().unwrap()).unwrap();
        fs::write(&path, text).unwrap();
        fs::set_permissions(&path, fs::Permissions::from_mode(0o755)).unwrap();
    };
    script(".ci/run", &fs::read_to_string(root().join(".ci/run")).unwrap());
    script("host/run-tests", &format!("#!/bin/sh\necho tested\nexit {tests}\n"));
    let log = "== wire\nfn wire::finished: proved\nrt: wire proved\n\
        rt: audit is kept: an earlier run on this machine proved the same files over the same libraries\n\
        rt: rootmap proved\nrt: wire: trying its must-fail edits (1)\n\
        rt: must-fail wire/be8_past.edit: refused, as it must be: src/number.rt:1:1: it is not proved\n\
        rt: must-fail audit/full_table.edit: refused, as it must be\n\
        rt: must-fail audit/lost.edit: BAD EDIT: an 'old:' text is in src/lib.rt 0 times, and not once\n\
        rt: rootmap ran, and wrote what its file stdout has\n\
        rt: rootmap ran (built by Rattle's own compiler), and wrote what its file stdout has";
    let ok = if proofs == 0 { format!("rt: ok; handles allowed: none; {did}") } else { "rt: FAILED: wire".to_owned() };
    let last = format!("{} passed, {proofs} failed", 5 - proofs);
    script(
        "bin/rt",
        &format!("#!/bin/sh\n[ \"$*\" = ci ] || exit 3\ncat <<'END'\n{log}\n{ok}\n{last}\nEND\nexit {proofs}\n"),
    );
    let path = format!("{}:{}", folder.join("bin").display(), std::env::var("PATH").unwrap());
    let output = Command::new(folder.join(".ci/run")).env("PATH", path).output().unwrap();
    let lines = String::from_utf8(output.stdout).unwrap().lines().map(str::to_owned).collect();
    (output.status.success(), lines)
}

/// What `rt ci` says where all was done in this run, and where some was kept.
const ALL: &str = "must-fail edits: 2 refused; every proof and must-fail edit was done in this run";
const SOME: &str = "must-fail edits: 2 refused, 1 of them only by a limit; done in this run: 2 of the 3 proofs (of crates \
    and of their tests) and 1 of the 2 must-fail edits; the others are kept from earlier runs of the same files on this \
    machine";

/// The gate's times stand before its last line, which is that of `rt ci`.
#[test]
fn the_times_of_the_gate() {
    let some = "done in this run: 2 of the 3 proofs (of crates and of their tests) and 1 of the 2 must-fail edits";
    for (name, did, share) in [("gate_all", ALL, "all done in this run"), ("gate_some", SOME, some)] {
        let (passed, lines) = gate(name, 0, 0, did);
        let [.., parts, checks, row, last] = lines.as_slice() else { panic!("{lines:?}") };
        assert!(passed && last == "5 passed, 0 failed", "{lines:?}");
        assert!(parts.starts_with("gate: rt ci ") && parts.contains(" s, host tests "), "{parts}");
        assert!(parts.ends_with(" s"), "{parts}");
        assert_eq!(checks, &format!("gate: 3 crates, 2 edits refused; {share}"));
        let cells: Vec<&str> = row.split('|').map(str::trim).collect();
        assert_eq!((cells.len(), cells[0], cells[2], cells[3]), (6, "gate:", "3", "2"), "{row}");
        assert!(cells[4].ends_with(&format!(" s; {share}")), "{row}");
    }
}

/// A gate that failed has neither times nor that last line behind them: where a proof or a test failed, and where an edit
/// could not be tried, which `rt ci` itself passes.
#[test]
fn a_gate_that_failed() {
    let bad = "must-fail edits: 2 refused, 1 bad; every proof and must-fail edit was done in this run";
    let both = SOME.replace("only by a limit;", "only by a limit, 12 bad;");
    let tries =
        [("gate_proofs", 1, 0, ALL), ("gate_tests", 0, 1, ALL), ("gate_bad", 0, 0, bad), ("gate_both", 0, 0, &both)];
    for (name, proofs, tests, did) in tries {
        let (passed, lines) = gate(name, proofs, tests, did);
        let is_said = lines.iter().any(|line| line.starts_with("gate: |"));
        assert!(!passed && !is_said && lines.last().is_some_and(|last| last != "5 passed, 0 failed"), "{lines:?}");
        assert_eq!(lines.last().is_some_and(|last| last == "tested"), tests == 1, "{lines:?}");
    }
}
