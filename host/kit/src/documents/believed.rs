//! The definitions that a promise rests on. A definition is reached if its name, or that of a constructor of it,
//! stands in the promise or in the text of a definition that is reached, in a file that has it or takes it. A bound
//! variable or a field of that name counts too: so no definition is called unused that is used, but one may be called
//! used by its name alone.

use super::repository::{Place, Repository};
use super::theory::{words, Definition, Use};
use std::collections::BTreeSet;

/// Those that the promises of the public functions rest on, and the types of these theorems: crate, file and name.
pub fn reached<'a>(repository: &'a Repository, theorems: &[(String, String, String)]) -> BTreeSet<Place<'a>> {
    let mut search = Search::new(repository);
    for (source, function) in repository.crates.iter().flat_map(|one| one.public()) {
        search.read(&source.uses, function.ensures.as_deref().unwrap_or_default());
    }
    for one in &repository.crates {
        for theory in &one.proofs {
            let is_named = |found: &&Definition| {
                theorems.iter().any(|(of, file, name)| (of, file, name) == (&one.name, &theory.file, &found.name))
            };
            for theorem in theory.definitions.iter().filter(is_named) {
                search.read(&theory.uses, &theorem.signature);
            }
        }
    }
    search.run()
}

/// Those that a definition rests on, and itself.
pub fn under<'a>(repository: &'a Repository, of: &str, file: &str, name: &str) -> BTreeSet<Place<'a>> {
    let mut search = Search::new(repository);
    repository.definition(of, file, name).into_iter().for_each(|found| search.add(found));
    search.run()
}

struct Search<'a> {
    repository: &'a Repository,
    reached: BTreeSet<Place<'a>>,
    open: Vec<(Place<'a>, &'a Definition)>,
}

impl<'a> Search<'a> {
    fn new(repository: &'a Repository) -> Self {
        Search { repository, reached: BTreeSet::new(), open: Vec::new() }
    }

    fn run(mut self) -> BTreeSet<Place<'a>> {
        while let Some((place, definition)) = self.open.pop() {
            let Some((_, theory)) = self.repository.specs(place.of, place.file) else { continue };
            self.read(&theory.uses, &definition.text);
            for word in words(&definition.text).flat_map(|word| word.split('.')) {
                let found = self.repository.definition(place.of, place.file, word);
                found.into_iter().for_each(|found| self.add(found));
            }
        }
        self.reached
    }

    fn read(&mut self, uses: &[Use], text: &str) {
        for word in words(text) {
            self.repository.meant(uses, word).into_iter().for_each(|found| self.add(found));
        }
    }

    fn add(&mut self, found: (Place<'a>, &'a Definition)) {
        if self.reached.insert(found.0) {
            self.open.push(found);
        }
    }
}

/// All definitions in specs.
pub fn all(repository: &Repository) -> impl Iterator<Item = Place<'_>> {
    repository.crates.iter().flat_map(|of| {
        let theories = of.specs.iter();
        theories.flat_map(move |theory| {
            theory.definitions.iter().map(move |one| Place { of: &of.name, file: &theory.file, name: &one.name })
        })
    })
}
