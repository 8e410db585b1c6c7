//! All crates, in the order of crates.txt.

use super::edit::Edit;
use super::source::Source;
use super::theory::{sign, Definition, Taken, Theory, Use};
use super::{edit, source, text, theory};
use std::io;
use std::path::Path;

pub struct Repository {
    pub crates: Vec<Crate>,
}

pub struct Crate {
    pub name: String,
    pub sources: Vec<Source>,
    pub specs: Vec<Theory>,
    pub proofs: Vec<Theory>,
    pub edits: Vec<Edit>,
}

/// Where a definition stands.
#[derive(Clone, Copy, PartialEq, Eq, PartialOrd, Ord, Debug)]
pub struct Place<'a> {
    pub of: &'a str,
    pub file: &'a str,
    pub name: &'a str,
}

pub fn read(root: &Path) -> io::Result<Repository> {
    let crates = text(&root.join("crates.txt"))?;
    // A line is `NAME: DEP DEP`, with words about the crate behind its name.
    let names = crates.lines().filter_map(|line| line.split([':', '#']).next()?.split_whitespace().next());
    Ok(Repository { crates: names.map(|name| read_crate(root, name)).collect::<io::Result<_>>()? })
}

fn read_crate(root: &Path, name: &str) -> io::Result<Crate> {
    let folder = root.join("crates").join(name);
    Ok(Crate {
        name: name.to_owned(),
        sources: source::read(&folder.join("src"))?,
        specs: theory::read(&folder.join("specs"))?,
        proofs: theory::read(&folder.join("proofs"))?,
        edits: edit::read(&folder.join("must-fail"))?,
    })
}

impl Repository {
    pub fn specs(&self, of: &str, file: &str) -> Option<(&Crate, &Theory)> {
        let of = self.crates.iter().find(|one| one.name == of)?;
        Some((of, of.specs.iter().find(|theory| theory.file == file)?))
    }

    /// The definition that has this name, or a constructor of this name, in a file.
    pub fn definition(&self, of: &str, file: &str, name: &str) -> Option<(Place<'_>, &Definition)> {
        let (of, theory) = self.specs(of, file)?;
        let found = theory.definitions.iter().find(|one| one.is_called(name))?;
        Some((Place { of: &of.name, file: &theory.file, name: &found.name }, found))
    }

    /// The definitions that a word may mean where these names are taken: `name`, or `prefix.name`.
    pub fn meant(&self, uses: &[Use], word: &str) -> Vec<(Place<'_>, &Definition)> {
        let parts: Vec<&str> = word.split('.').collect();
        let in_use = |one: &Use| match &one.names {
            Taken::These(names) => {
                let names = parts.iter().filter(|part| names.iter().any(|name| sign(name) == **part));
                names.filter_map(|name| self.definition(&one.of, &one.file, name)).collect::<Vec<_>>()
            }
            Taken::As(prefix) if parts[0] == prefix => {
                parts[1..].iter().filter_map(|name| self.definition(&one.of, &one.file, name)).collect()
            }
            Taken::As(_) => Vec::new(),
        };
        uses.iter().flat_map(in_use).collect()
    }
}

impl Crate {
    /// Its public functions, each with its module.
    pub fn public(&self) -> impl Iterator<Item = (&Source, &source::Function)> {
        let all = self.sources.iter().flat_map(|source| source.functions.iter().map(move |one| (source, one)));
        all.filter(|(_, function)| function.is_public)
    }
}
