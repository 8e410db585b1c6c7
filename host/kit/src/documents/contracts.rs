//! docs/CONTRACTS.md: each public function with its comment, the definitions that its `ensures` cites, and the edits
//! that it refuses.

use super::edit::Edit;
use super::repository::{Crate, Repository};
use super::source::{Function, Source};
use super::theory::words;
use programs::usage::wrapped;
use std::collections::BTreeMap;
use std::io;

const HEAD: &str = "# Contracts

Made by `host/run-docs`: each public function with the definitions that its `ensures` cites (for one of a trait, its
member `ghost NAME_gives`), in brackets, and the comment above it, then what the edits in `crates/NAME/must-fail` break,
each of which is refused. No public function has a `requires`: each promise is for every input. The parameters of the C
functions stand in `include/rootmap.h`.

A definition is named by its file in `crates/NAME/specs`, with the crate before it where that is another. `held`,
`before`, `after` (a slice, at the call, at the return), `all` (of a list of tests), `Gives` (an enum's case, and its
answer) and `told` (an answer as C gets it) are left out. Last stand edits of definitions, which leave the code as the
wrong answer, and of private functions of several public ones.
";

/// How wide its lines are.
const WIDTH: usize = 160;

/// Names that many promises have.
const PLUMBING: [(&str, &str); 6] =
    [("Lent", "held"), ("Lent", "before"), ("Lent", "after"), ("Check", "all"), ("Answer", "Gives"), ("Told", "told")];

pub fn page(repository: &Repository) -> io::Result<String> {
    let mut page = HEAD.to_owned();
    for one in &repository.crates {
        if one.public().next().is_some() || !one.edits.is_empty() {
            page += &section(repository, one)?;
        }
    }
    Ok(page)
}

fn section(repository: &Repository, of: &Crate) -> io::Result<String> {
    let mut text = format!("\n## {}\n\n", of.name);
    let mut placed = Vec::new();
    for edit in &of.edits {
        placed.push((edit, stands(of, edit)?));
    }
    for (source, function) in of.public() {
        let own = placed.iter().filter(|(_, place)| *place == Stands::At(source.path(function)));
        text += &entry(repository, of, source, function);
        text += &line("  ", own.map(|(edit, _)| edit.says.clone()).collect());
    }
    Ok(text + &line("", shared(&placed)))
}

/// The edits that belong to no one public function, each file of definitions and each private function with its own.
fn shared(placed: &[(&Edit, Stands)]) -> Vec<String> {
    let mut texts: BTreeMap<&str, Vec<&str>> = BTreeMap::new();
    for (edit, place) in placed {
        if let Stands::Shared(name) = place {
            texts.entry(name).or_default().push(&edit.says);
        }
    }
    texts.iter().map(|(name, edits)| format!("`{name}`: {}", edits.join("; "))).collect()
}

/// An item of a list; nothing where it is empty.
fn line(indent: &str, texts: Vec<String>) -> String {
    if texts.is_empty() {
        return String::new();
    }
    item(indent, &texts.join("; "))
}

fn item(indent: &str, text: &str) -> String {
    let lines = wrapped(text, WIDTH - indent.len() - 2);
    format!("{indent}- {}\n", lines.join(&format!("\n{indent}  ")))
}

fn entry(repository: &Repository, of: &Crate, source: &Source, function: &Function) -> String {
    let parameters = if function.is_c { String::new() } else { format!("({})", function.parameters.join(", ")) };
    let mut text = format!("`{}{parameters}`", source.path(function));
    let cited = cited(repository, of, source, function);
    if !cited.is_empty() {
        text += &format!(" [{}]", cited.join(", "));
    }
    item("", &format!("{text}: {}", function.comment))
}

/// The definitions that the promise cites, as a reader finds them from the section of a crate.
fn cited(repository: &Repository, of: &Crate, source: &Source, function: &Function) -> Vec<String> {
    let mut cited = Vec::new();
    let words = words(function.ensures.as_deref().unwrap_or_default());
    // `file.now` is of a parameter, too.
    let is_parameter =
        |word: &&str| function.parameters.iter().any(|name| Some(name.as_str()) == word.split('.').next());
    for word in words.filter(|word| !is_parameter(word)) {
        for (place, _) in repository.meant(&source.uses, word) {
            let is_own = place.of == of.name;
            let owner = if is_own { String::new() } else { format!("{}/", place.of) };
            let name = format!("{owner}{}.{}", place.file, place.name);
            if !PLUMBING.contains(&(place.file, place.name)) && !cited.contains(&name) {
                cited.push(name);
            }
        }
    }
    cited
}

/// What an edit changes: the one public function that it changes, or whose private function it changes; else a file
/// of definitions, or a private function of several.
#[derive(PartialEq)]
enum Stands {
    At(String),
    Shared(String),
}

fn stands(of: &Crate, edit: &Edit) -> io::Result<Stands> {
    let lost = || io::Error::other(format!("{}: must-fail/{}.edit changes nothing that is there", of.name, edit.name));
    edit.old.iter().find_map(|(file, old)| stands_at(of, file, old)).ok_or_else(lost)
}

/// The same of one line; none of an import, which belongs to no definition or function.
fn stands_at(of: &Crate, file: &str, old: &str) -> Option<Stands> {
    if let Some(file) = file.strip_prefix("specs/").and_then(|file| file.strip_suffix(".antt")) {
        let theory = of.specs.iter().find(|theory| theory.file == file)?;
        theory.definitions.iter().find(|one| one.text.contains(old))?;
        return Some(Stands::Shared(file.to_owned()));
    }
    let file = file.strip_prefix("src/").and_then(|file| file.strip_suffix(".rt"))?;
    let module = if file == "lib" { "" } else { file };
    let source = of.sources.iter().find(|source| source.module == module)?;
    let (name, changed) = source.changed(old)?;
    let callers = public_over(of, changed.into_iter().map(|function| (source, function)).collect());
    Some(match callers.as_slice() {
        [one] => Stands::At(one.clone()),
        _ => Stands::Shared(name),
    })
}

/// The public functions that come to these through private ones alone.
fn public_over<'a>(of: &'a Crate, mut open: Vec<(&'a Source, &'a Function)>) -> Vec<String> {
    let mut seen: Vec<String> = open.iter().map(|(source, function)| source.path(function)).collect();
    let mut found = Vec::new();
    while let Some((at, called)) = open.pop() {
        if called.is_public {
            found.push(at.path(called));
            continue;
        }
        for from in &of.sources {
            for caller in from.functions.iter().filter(|caller| calls(from, caller, at, called)) {
                if !seen.contains(&from.path(caller)) {
                    seen.push(from.path(caller));
                    open.push((from, caller));
                }
            }
        }
    }
    found
}

/// Whether a function calls another of its crate: by its name in the module that has it, by its path in others, or as
/// taken by `use`; a method behind a dot, or behind its type.
fn calls(from: &Source, caller: &Function, at: &Source, called: &Function) -> bool {
    if !called.of.is_empty() {
        let calls = [format!(".{}(", called.name), format!("{}::{}(", called.of, called.name)];
        return calls.iter().any(|call| caller.text.contains(call));
    }
    let path = at.path(called);
    let is_taken = from.imports.iter().any(|import| import.strip_prefix("crate::").unwrap_or(import) == path);
    let name = if from.module == at.module || is_taken { called.name.clone() } else { path };
    let is_call = |(place, _)| {
        let (before, rest) = (&caller.text[..place], &caller.text[place + name.len()..]);
        let is_whole = before.ends_with(|c: char| !c.is_alphanumeric() && !"_.:".contains(c));
        is_whole && !before.ends_with("fn ") && ["(", "::<"].iter().any(|open| rest.starts_with(open))
    };
    caller.text.match_indices(&name).any(is_call)
}
